/* The wait is in a helper; what is waited for, its callers say. */
static void wr_wait(struct completion *done)
{
	wait_for_completion(done);
}

static void wr_wait_long(struct completion *done)
{
	wr_wait(done);
}

static void wr_first_work(struct work_struct *work)
{
	struct wr *w = container_of(work, struct wr, first_work);

	wr_wait(&w->read);
}

static void wr_second_work(struct work_struct *work)
{
	struct wr *w = container_of(work, struct wr, second_work);

	wr_wait_long(&w->written);
}

static void wr_read_work(struct work_struct *work)
{
	struct wr *w = container_of(work, struct wr, read_work);

	complete(&w->read);
}

static void wr_written_work(struct work_struct *work)
{
	struct wr *w = container_of(work, struct wr, written_work);

	complete(&w->written);
}

static void wr_init(struct wr *w)
{
	INIT_WORK(&w->first_work, wr_first_work);
	INIT_WORK(&w->second_work, wr_second_work);
	INIT_WORK(&w->read_work, wr_read_work);
	INIT_WORK(&w->written_work, wr_written_work);
}
