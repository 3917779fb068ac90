/* The function that sleeps is handed to another one, which calls its parameter. */
static void cb_sleeps(struct cb *c)
{
	flush_work(&c->other_work);
}

static void cb_apply(struct cb *c, void (*call)(struct cb *))
{
	call(c);
}

static void cb_work(struct work_struct *work)
{
	struct cb *c = container_of(work, struct cb, work);

	cb_apply(c, cb_sleeps);
}

static void cb_other_work(struct work_struct *work)
{
}

static int cb_init(struct cb *c)
{
	INIT_WORK(&c->work, cb_work);
	INIT_WORK(&c->other_work, cb_other_work);
	return 0;
}
