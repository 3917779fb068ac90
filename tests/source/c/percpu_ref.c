/* The function that sleeps is what percpu_ref_kill calls at the end. */
static void pr_release(struct percpu_ref *ref)
{
	struct pr *p = container_of(ref, struct pr, ref);

	flush_work(&p->io_work);
}

static void pr_io_work(struct work_struct *work)
{
}

static void pr_stop_work(struct work_struct *work)
{
	struct pr *p = container_of(work, struct pr, stop_work);

	percpu_ref_kill(&p->ref);
}

static int pr_init(struct pr *p)
{
	INIT_WORK(&p->io_work, pr_io_work);
	INIT_WORK(&p->stop_work, pr_stop_work);
	return percpu_ref_init(&p->ref, pr_release, 0, GFP_KERNEL);
}
