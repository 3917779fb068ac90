/* Sleeps for a time: in a loop each is a wait, and else it ends by itself. */
static void po_while(struct po *p)
{
	while (po_is_busy(p))
		msleep(1);
}

static void po_do(struct po *p)
{
	do {
		usleep_range(10, 20);
	} while (po_is_busy(p));
}

static void po_goto(struct po *p)
{
again:
	if (po_is_busy(p)) {
		ssleep(1);
		goto again;
	}
}

static void po_for(struct po *p)
{
	int i;

	for (i = 0; i < 10; i++)
		if (po_is_busy(p))
			msleep(20);
}

static void po_once(struct po *p)
{
	while (!po_is_idle(p))
		cpu_relax();
	msleep(100);
	if (po_is_busy(p))
		goto out;
	fsleep(3);
out:
	po_use(p);
}

static void po_delay(void)
{
	msleep(5);
}

static void po_helped(struct po *p)
{
	po_delay();
	while (po_is_busy(p))
		po_delay();
}

static void po_work(struct work_struct *work)
{
	struct po *p = container_of(work, struct po, work);

	po_while(p);
	po_do(p);
	po_goto(p);
	po_for(p);
	po_once(p);
	po_helped(p);
	async_synchronize_full();
}

void po_start(struct po *p)
{
	INIT_WORK(&p->work, po_work);
}
