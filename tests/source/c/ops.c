/* The function that sleeps stands in a table of operations. */
static void ops_stop(struct ops_dev *d)
{
	wait_for_completion(&d->stopped);
}

static void ops_start(struct ops_dev *d)
{
}

static const struct ops_ops ops_table = {
	.start	= ops_start,
	.stop	= ops_stop,
};

static void ops_work(struct work_struct *work)
{
	struct ops_dev *d = container_of(work, struct ops_dev, work);

	d->ops->stop(d);
}

static void ops_end_work(struct work_struct *work)
{
	struct ops_dev *d = container_of(work, struct ops_dev, end_work);

	complete(&d->stopped);
}

static void ops_init(struct ops_dev *d)
{
	d->ops = &ops_table;
	INIT_WORK(&d->work, ops_work);
	INIT_DELAYED_WORK(&d->end_work, ops_end_work);
}
