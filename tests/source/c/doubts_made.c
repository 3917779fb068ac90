/* Beside doubts.c: with this call the workqueue is made. */
int db_set_init(struct db_set *set, int flags);

int dm_init(struct db *x)
{
	return db_set_init(&x->rescued, DB_NEED_BVECS | DB_NEED_RESCUER);
}
