/* Who enters a wait queue and sleeps waits; who leaves an entry with a function there doesn't. */
static void en_sleeps(struct work_struct *work)
{
	struct en *e = container_of(work, struct en, sleep_work);
	DECLARE_WAITQUEUE(wait, current);

	spin_lock_irq(&e->wait.lock);
	while (!e->ready) {
		set_current_state(TASK_UNINTERRUPTIBLE);
		__add_wait_queue(&e->wait, &wait);
		spin_unlock_irq(&e->wait.lock);
		io_schedule();
		spin_lock_irq(&e->wait.lock);
	}
	spin_unlock_irq(&e->wait.lock);
}

static void en_asks(struct work_struct *work)
{
	struct en *e = container_of(work, struct en, ask_work);

	spin_lock_irq(&e->wait.lock);
	__add_wait_queue(&e->wait, &e->entry);
	spin_unlock_irq(&e->wait.lock);
}

void en_start(struct en *e)
{
	INIT_WORK(&e->sleep_work, en_sleeps);
	INIT_WORK(&e->ask_work, en_asks);
}
