/* The function that sleeps is called for the last reference. */
static void kr_free(struct kref *ref)
{
	struct kr *k = container_of(ref, struct kr, ref);

	destroy_workqueue(k->wq);
}

static void kr_put(struct kr *k)
{
	kref_put(&k->ref, kr_free);
}

static void kr_work(struct work_struct *work)
{
	kr_put(container_of(work, struct kr, work));
}

static void kr_log_work(struct work_struct *work)
{
}

static int kr_init(struct kr *k)
{
	k->wq = alloc_ordered_workqueue("kr-log", WQ_MEM_RECLAIM);
	k->stop_wq = alloc_workqueue("kr-stop", 0, 1);
	INIT_WORK(&k->work, kr_work);
	INIT_WORK(&k->log_work, kr_log_work);
	return 0;
}

void kr_log(struct kr *k)
{
	queue_work(k->wq, &k->log_work);
}

void kr_stop(struct kr *k)
{
	queue_work(k->stop_wq, &k->work);
}
