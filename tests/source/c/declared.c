/* A work item that is declared, and one that is a kthread_worker's. */
static void declared_fn(struct work_struct *work)
{
	flush_scheduled_work();
}

static DECLARE_WORK(declared_work, declared_fn);

static void declared_later_fn(struct work_struct *work)
{
	flush_work(&declared_work);
}

static DECLARE_DELAYED_WORK(declared_later_work, declared_later_fn);

void declared_kick(void)
{
	schedule_work(&declared_work);
	queue_delayed_work(system_unbound_wq, &declared_later_work, HZ);
}
