/* One function sets two work_structs, and hands one to a helper that queues it. */
static void ti_first(struct work_struct *work)
{
}

static void ti_second(struct work_struct *work)
{
	struct ti *t = container_of(work, struct ti, second_work);

	flush_work(&t->first_work);
}

static void ti_set(struct work_struct *work, work_func_t fn)
{
	INIT_WORK(work, fn);
}

static void ti_go(struct ti *t, struct work_struct *work)
{
	queue_work(t->wq, work);
}

int ti_start(struct ti *t)
{
	unsigned int flags = WQ_UNBOUND | WQ_MEM_RECLAIM;

	t->wq = alloc_workqueue("ti", flags, 1);
	if (!t->wq)
		return -ENOMEM;
	ti_set(&t->first_work, ti_first);
	INIT_WORK(&t->second_work, ti_second);
	ti_go(t, &t->second_work);
	return 0;
}
