/* Three workqueues, of which only one has a rescuer. */
static void nr_kept(struct work_struct *work)
{
}

static void nr_plain(struct work_struct *work)
{
}

static void nr_system(struct work_struct *work)
{
}

int nr_init(struct nr *n)
{
	n->kept_wq = alloc_workqueue("nr-kept", WQ_MEM_RECLAIM, 0);
	n->plain_wq = alloc_workqueue("nr-plain", WQ_UNBOUND, 0);
	INIT_WORK(&n->kept_work, nr_kept);
	INIT_WORK(&n->plain_work, nr_plain);
	INIT_WORK(&n->system_work, nr_system);
	queue_work(n->kept_wq, &n->kept_work);
	queue_work(n->plain_wq, &n->plain_work);
	schedule_work(&n->system_work);
	return 0;
}
