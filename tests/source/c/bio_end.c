/* The wait ends when the bio does, by what its bi_end_io holds; what runs there can't sleep itself. */
static void be_end_io(struct bio *bio)
{
	struct be *b = bio->bi_private;

	complete(&b->done);
	flush_work(&b->sync_work);
}

static void be_send_work(struct work_struct *work)
{
	struct be *b = container_of(work, struct be, send_work);

	b->bio->bi_end_io = be_end_io;
	wait_for_completion(&b->done);
}

static void be_answer_work(struct work_struct *work)
{
	struct be *b = container_of(work, struct be, answer_work);

	bio_endio(b->bio);
}

static void be_sync_work(struct work_struct *work)
{
}

static void be_init(struct be *b)
{
	INIT_WORK(&b->send_work, be_send_work);
	INIT_WORK(&b->answer_work, be_answer_work);
	INIT_WORK(&b->sync_work, be_sync_work);
}
