/* The work_struct of a delayed_work is the item. The driver's struct says which members are delayed. */
struct dw {
	struct workqueue_struct *wq;
	struct delayed_work poll;
	struct dw_timer {
		struct work_struct work;
	} io;
	struct work_struct end;
};

static void dw_poll(struct work_struct *work)
{
}

static void dw_io(struct work_struct *work)
{
}

static void dw_end(struct work_struct *work)
{
	struct dw *d = container_of(work, struct dw, end);

	flush_work(&d->poll.work);
	flush_work(&d->io.work);
}

static void dw_start(struct dw *d)
{
	d->wq = alloc_workqueue("dw", WQ_MEM_RECLAIM, 0);
	INIT_DELAYED_WORK(&d->poll, dw_poll);
	INIT_WORK(&d->io.work, dw_io);
	INIT_WORK(&d->end, dw_end);
	queue_work(d->wq, &d->poll.work);
	queue_work(d->wq, &d->io.work);
}
