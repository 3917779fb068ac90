/* One workqueue, by its variable and by the function that has it built in. */
static struct workqueue_struct *kblockd_workqueue;

static void kb_first(struct work_struct *work)
{
}

static void kb_second(struct work_struct *work)
{
}

int kblockd_schedule_work(struct work_struct *work)
{
	return queue_work(kblockd_workqueue, work);
}

int kb_init(struct kb *k)
{
	kblockd_workqueue = alloc_workqueue("kblockd", WQ_MEM_RECLAIM | WQ_HIGHPRI, 0);
	INIT_WORK(&k->first_work, kb_first);
	INIT_WORK(&k->second_work, kb_second);
	queue_work(kblockd_workqueue, &k->first_work);
	kblockd_schedule_work(&k->second_work);
	return 0;
}
