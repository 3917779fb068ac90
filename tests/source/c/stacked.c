/* A driver whose disk may stand on another of its like: submit_bio then runs its submit_bio function. */
static void st_submit_bio(struct bio *bio)
{
	struct st *s = bio->bi_bdev->bd_disk->private_data;

	wait_event(s->idle, !s->busy);
}

static const struct block_device_operations st_ops = {
	.submit_bio	= st_submit_bio,
};

static void st_work(struct work_struct *work)
{
	struct st *s = container_of(work, struct st, work);

	submit_bio(s->bio);
}

static void st_idle_work(struct work_struct *work)
{
	struct st *s = container_of(work, struct st, idle_work);

	wake_up(&s->idle);
}

static void st_init(struct st *s)
{
	INIT_WORK(&s->work, st_work);
	INIT_WORK(&s->idle_work, st_idle_work);
}
