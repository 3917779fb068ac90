/* A function that is called twice, once by a call that a line dismisses. */
static void tw_wait(struct dev *d)
{
	flush_work(&d->other_work);
}
static void tw_helper(struct dev *d)
{
	tw_wait(d);
}
static void tw_work(struct work_struct *work)
{
	struct dev *d = container_of(work, struct dev, one_work);
	tw_wait(d);
	tw_helper(d);
}
static void tw_other(struct work_struct *work)
{
}
static int tw_probe(struct dev *d)
{
	INIT_WORK(&d->one_work, tw_work);
	INIT_WORK(&d->other_work, tw_other);
	queue_work(d->wq, &d->one_work);
	queue_work(d->wq2, &d->other_work);
	return 0;
}
