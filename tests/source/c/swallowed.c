/* Coccinelle can't parse the first function, and takes the next one with it. It doesn't say so. */
static void sw_first(struct work_struct *work)
{
	struct sw *s = container_of(work, struct sw, work);

	SW_LOOP((s);
	wait_for_completion(&s->done);
	SW_POOL;
}

static void sw_second(struct work_struct *work)
{
	struct sw *s = container_of(work, struct sw, second_work);

	cancel_work_sync(&s->end_work);
}

static void sw_end(struct work_struct *work)
{
}

static int sw_init(struct sw *s)
{
	INIT_WORK(&s->work, sw_first);
	INIT_WORK(&s->second_work, sw_second);
	INIT_WORK(&s->end_work, sw_end);
	return 0;
}
