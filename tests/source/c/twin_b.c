/* This file and twin_a.c have static functions of the same names. */
static void twin_stop(struct twin_b *t)
{
	drain_workqueue(t->wq);
}

static void twin_work(struct work_struct *work)
{
	twin_stop(container_of(work, struct twin_b, work));
}

void twin_init_b(struct twin_b *t)
{
	INIT_WORK(&t->work, twin_work);
}
