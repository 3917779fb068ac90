/* Two objects have a function of their own for the last reference; one function is called twice, with two objects. */
static void rl_release_a(struct device *dev)
{
	flush_work(&rl->a_work);
}

static void rl_release_b(struct device *dev)
{
	flush_work(&rl->b_work);
}

static void rl_put(struct rl *r, struct rl_part *part)
{
	cancel_work_sync(&part->work);
}

static void rl_put_work(struct work_struct *work)
{
	struct rl *r = container_of(work, struct rl, put_work);

	put_device(&r->a_dev);
	rl_put(r, &r->first);
	rl_put(r, &r->second);
	rl_done(r);
}

static void rl_late_work(struct work_struct *work)
{
	struct rl *r = container_of(work, struct rl, late_work);

	if (r->early)
		rl_put(r->parent, &r->first);
	rl_put(r, &r->first);
}

static void rl_init(struct rl *r)
{
	r->a_dev.release = rl_release_a;
	r->b_dev.release = rl_release_b;
	INIT_WORK(&r->put_work, rl_put_work);
	INIT_WORK(&r->late_work, rl_late_work);
}
