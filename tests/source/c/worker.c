/* A kthread_worker, and a variable that holds a function. */
static void worker_end(struct worker_dev *w)
{
	kthread_flush_worker(w->worker);
}

static void worker_fn(struct kthread_work *work)
{
}

static void worker_stop_fn(struct work_struct *work)
{
	struct worker_dev *w = container_of(work, struct worker_dev, stop_work);
	void (*end)(struct worker_dev *) = w->quick ? NULL : worker_end;

	end(w);
}

static int worker_start(struct worker_dev *w)
{
	w->worker = kthread_create_worker(0, "worker-dev");
	kthread_init_work(&w->work, worker_fn);
	INIT_WORK(&w->stop_work, worker_stop_fn);
	kthread_queue_work(w->worker, &w->work);
	return 0;
}
