/* A macro sleeps. */
#define macro_wait(m, what)						\
	do {								\
		if (!(what))						\
			wait_event((m)->wait, what);			\
	} while (0)

static void macro_work(struct work_struct *work)
{
	struct macro *m = container_of(work, struct macro, work);

	macro_wait(m, m->ready);
}

static void macro_ready_work(struct work_struct *work)
{
	struct macro *m = container_of(work, struct macro, ready_work);

	m->ready = true;
	wake_up(&m->wait);
}

static void macro_init(struct macro *m)
{
	INIT_WORK(&m->work, macro_work);
	INIT_WORK(&m->ready_work, macro_ready_work);
}
