/* This file and twin_b.c have static functions of the same names. */
static void twin_stop(struct twin_a *t)
{
	flush_work(&t->end_work);
}

static void twin_work(struct work_struct *work)
{
	twin_stop(container_of(work, struct twin_a, work));
}

static void twin_end_a(struct work_struct *work)
{
}

void twin_init_a(struct twin_a *t)
{
	INIT_WORK(&t->work, twin_work);
	INIT_WORK(&t->end_work, twin_end_a);
}
