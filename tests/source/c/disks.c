/* Plain I/O in many places, the network, a thread, and names that only look like waits. */
static void dk_read(struct dk *d)
{
	submit_bio(d->read);
	lock_buffer(d->bh);
}

static void dk_write(struct dk *d)
{
	submit_bio(d->write);
	submit_bio_wait(d->flush);
}

static void dk_shut_down(struct dk *d)
{
	flush_work(&d->end);
	kthread_stop(d->thread);
}

static void dk_work(struct work_struct *work)
{
	struct dk *d = container_of(work, struct dk, work);

	dk_read(d);
	dk_write(d);
	skcipher_request_set_sync_tfm(d->req, d->tfm);
	kernel_sendmsg(d->sock, &d->msg, d->vec, 1, 10);
	if (PageDirty(d->page) && __builtin_expect(d->failed, 0))
		dk_shut_down(d);
}

static void dk_end(struct work_struct *work)
{
}

static int dk_thread(void *data)
{
	struct dk *d = data;

	wait_for_completion(&d->ended);
	return 0;
}

void dk_start(struct dk *d)
{
	INIT_WORK(&d->work, dk_work);
	INIT_WORK(&d->end, dk_end);
	d->thread = kthread_run(dk_thread, d, "dk");
}
