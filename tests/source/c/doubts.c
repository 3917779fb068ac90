/* Waits that direct calls lead to, and that can't happen: a draft has no line for them, but a question. */
struct db_set {
	struct workqueue_struct *rescue;
	struct work_struct rescue_work;
};

struct db {
	struct workqueue_struct *wq, *other;
	struct work_struct a_work, b_work, c_work, d_work, e_work, f_work, g_work, h_work;
	struct db_set set, rescued;
	struct kref ref;
};

static void db_rescue(struct work_struct *work)
{
}

/* as bioset_init: only some flags make the workqueue */
int db_set_init(struct db_set *set, int flags)
{
	INIT_WORK(&set->rescue_work, db_rescue);
	if (flags & DB_NEED_RESCUER)
		set->rescue = alloc_workqueue("rescue", WQ_MEM_RECLAIM, 0);
	return 0;
}

static void db_set_queue(struct db_set *set)
{
	queue_work(set->rescue, &set->rescue_work);
}

static void db_set_exit(struct db_set *set)
{
	if (set->rescue)
		destroy_workqueue(set->rescue);
}

static void db_c(struct work_struct *work)
{
}

static void db_down(struct db *x, bool destroys)
{
	if (destroys)
		flush_work(&x->c_work);
}

static void db_reset(struct db *x)
{
	flush_work(&x->c_work);
}

/* the constant excludes the first way, not the second */
static void db_a(struct work_struct *work)
{
	struct db *x = container_of(work, struct db, a_work);

	db_down(x, false);
	db_reset(x);
}

static void db_b(struct work_struct *work)
{
	struct db *x = container_of(work, struct db, b_work);

	db_set_exit(&x->set);
}

static void db_release(struct kref *ref)
{
	struct db *x = container_of(ref, struct db, ref);

	destroy_workqueue(x->other);
}

static void db_d(struct work_struct *work)
{
	struct db *x = container_of(work, struct db, d_work);

	kref_put(&x->ref, db_release);
}

static void db_e(struct work_struct *work)
{
}

int db_init(struct db *x, int is_fast)
{
	x->wq = alloc_workqueue("db", WQ_MEM_RECLAIM, 0);
	x->other = alloc_workqueue("other", WQ_MEM_RECLAIM, 0);
	INIT_WORK(&x->a_work, db_a);
	INIT_WORK(&x->b_work, db_b);
	INIT_WORK(&x->c_work, db_c);
	INIT_WORK(&x->d_work, db_d);
	INIT_WORK(&x->e_work, db_e);
	queue_work(x->wq, &x->a_work);
	queue_work(x->wq, &x->b_work);
	queue_work(x->wq, &x->c_work);
	queue_work(x->wq, &x->d_work);
	queue_work(x->other, &x->e_work);
	return db_set_init(&x->set, is_fast ? DB_PERCPU : 0);
}

/* as close_connection of DLM: each of the two cancels the other one, and neither itself */
static void db_close(struct db *x, bool tx, bool rx)
{
	if (tx && cancel_work_sync(&x->f_work))
		x->peer = NULL;
	if (rx && cancel_work_sync(&x->g_work))
		x->peer = NULL;
}

static void db_f(struct work_struct *work)
{
	db_close(container_of(work, struct db, f_work), false, true);
}

static void db_g(struct work_struct *work)
{
	db_close(container_of(work, struct db, g_work), true, false);
}

static void db_destroy(struct db *x)
{
	flush_work(&x->e_work);
}

static void db_later(struct db *x)
{
	db_destroy(x);
}

/* what it made itself isn't in use yet; the other one is */
static void db_h(struct work_struct *work)
{
	struct db *x = container_of(work, struct db, h_work);
	struct db *made = db_create(x);

	if (!made->peer)
		db_destroy(made);
	db_later(x);
}

void db_more(struct db *x)
{
	INIT_WORK(&x->f_work, db_f);
	INIT_WORK(&x->g_work, db_g);
	INIT_WORK(&x->h_work, db_h);
	queue_work(x->wq, &x->f_work);
	queue_work(x->wq, &x->g_work);
	queue_work(x->wq, &x->h_work);
}
