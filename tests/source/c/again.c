/* One work_struct, which gets first one function and then another. */
static void again_second(struct work_struct *work)
{
}

static void again_first(struct work_struct *work)
{
	struct again *a = container_of(work, struct again, work);

	INIT_WORK(&a->work, again_second);
	queue_work(a->late_wq, &a->work);
}

static void again_waits(struct work_struct *work)
{
	struct again *a = container_of(work, struct again, wait_work);

	flush_work(&a->work);
}

void again_start(struct again *a)
{
	a->early_wq = alloc_workqueue("early", WQ_MEM_RECLAIM, 0);
	a->late_wq = alloc_workqueue("late", WQ_MEM_RECLAIM, 0);
	INIT_WORK(&a->wait_work, again_waits);
	INIT_WORK(&a->work, again_first);
	queue_work(a->early_wq, &a->work);
}
