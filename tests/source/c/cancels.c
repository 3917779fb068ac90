/* Cancels: of an item that waits for another one, of one that waits for nothing, of one whose wait isn't known. */
static void cc_end(struct work_struct *work)
{
}

static void cc_waits(struct work_struct *work)
{
	struct cc *c = container_of(work, struct cc, waits);

	flush_work(&c->end);
}

static void cc_idle(struct work_struct *work)
{
}

static void cc_asks(struct work_struct *work)
{
	struct cc *c = container_of(work, struct cc, asks);

	submit_bio_wait(c->bio);
}

static void cc_first(struct work_struct *work)
{
	struct cc *c = container_of(work, struct cc, first);

	cancel_work_sync(&c->waits);
	cancel_work_sync(&c->idle);
}

static void cc_second(struct work_struct *work)
{
	struct cc *c = container_of(work, struct cc, second);

	cancel_work_sync(&c->asks);
}

static void cc_third(struct work_struct *work)
{
	struct cc *c = container_of(work, struct cc, third);

	cancel_work_sync(&c->first);
}

void cc_start(struct cc *c)
{
	INIT_WORK(&c->end, cc_end);
	INIT_WORK(&c->waits, cc_waits);
	INIT_WORK(&c->idle, cc_idle);
	INIT_WORK(&c->asks, cc_asks);
	INIT_WORK(&c->first, cc_first);
	INIT_WORK(&c->second, cc_second);
	INIT_WORK(&c->third, cc_third);
}
