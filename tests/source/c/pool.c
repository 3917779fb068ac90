/* Elements of a pool; a wait queue that is entered first; calls that don't sleep. */
static void pool_take_work(struct work_struct *work)
{
	struct pool_dev *p = container_of(work, struct pool_dev, take_work);
	void *fast = mempool_alloc(p->fast_pool, GFP_NOWAIT);
	void *slow = mempool_alloc(p->slow_pool, GFP_NOIO);

	if (!fast)
		pool_use(slow);
}

static void pool_give_work(struct work_struct *work)
{
	struct pool_dev *p = container_of(work, struct pool_dev, give_work);

	mempool_free(p->last, p->slow_pool);
	mempool_free(p->last, p->fast_pool);
}

static void pool_wait_work(struct work_struct *work)
{
	struct pool_dev *p = container_of(work, struct pool_dev, wait_work);
	DEFINE_WAIT(wait);

	while (!p->empty) {
		prepare_to_wait(&p->wait, &wait, TASK_UNINTERRUPTIBLE);
		schedule();
	}
	finish_wait(&p->wait, &wait);
}

static void pool_init(struct pool_dev *p)
{
	INIT_WORK(&p->take_work, pool_take_work);
	INIT_WORK(&p->give_work, pool_give_work);
	INIT_WORK(&p->wait_work, pool_wait_work);
}
