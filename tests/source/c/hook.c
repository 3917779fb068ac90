/* A variable outside functions holds the function that waits: by its name, and by *. */
static void (*hk_hook)(struct hk *h);
static int (*hk_other)(struct hk *h);
static void (*hk_empty)(struct hk *h);

static void hk_wait(struct hk *h)
{
	wait_for_completion(&h->done);
}

static int hk_flush(struct hk *h)
{
	flush_work(&h->end_work);
	return 0;
}

static void hk_work(struct work_struct *work)
{
	struct hk *h = container_of(work, struct hk, work);

	hk_hook(h);
	(*hk_other)(h);
	hk_empty(h);
}

static void hk_end(struct work_struct *work)
{
	struct hk *h = container_of(work, struct hk, end_work);

	complete(&h->done);
}

void hk_start(struct hk *h)
{
	hk_hook = hk_wait;
	hk_other = hk_flush;
	INIT_WORK(&h->work, hk_work);
	INIT_WORK(&h->end_work, hk_end);
}
