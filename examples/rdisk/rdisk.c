/* rdisk.c */

/* Sends the requests that are waiting. Each is noted in the log first. */
static void rdisk_send(struct work_struct *work)
{
	struct rdisk *rd = container_of(work, struct rdisk, send_work);

	queue_work(rd->wq, &rd->log_work);
	wait_for_completion(&rd->log_written);
	rdisk_xmit(rd);
}

/* Writes a record of the log, and says so. */
static void rdisk_log(struct work_struct *work)
{
	struct rdisk *rd = container_of(work, struct rdisk, log_work);

	submit_bio_wait(rd->record);
	complete(&rd->log_written);
}

/* The connection is lost. Waits until nothing is being sent, and connects again. */
static void rdisk_reconnect(struct work_struct *work)
{
	struct rdisk *rd = container_of(work, struct rdisk, reconnect_work);

	flush_work(&rd->send_work);
	rdisk_connect(rd);
	queue_work(rd->wq, &rd->send_work);
}

/* Answers have come in. */
static void rdisk_receive(struct work_struct *work)
{
	struct rdisk *rd = container_of(work, struct rdisk, receive_work);

	if (rdisk_end_requests(rd) < 0)
		queue_work(rd->wq, &rd->reconnect_work);
}

static int rdisk_start(struct rdisk *rd)
{
	INIT_WORK(&rd->send_work, rdisk_send);
	INIT_WORK(&rd->log_work, rdisk_log);
	INIT_WORK(&rd->reconnect_work, rdisk_reconnect);
	INIT_WORK(&rd->receive_work, rdisk_receive);
	rd->wq = alloc_workqueue("rdisk", WQ_MEM_RECLAIM, 0);
	return rd->wq ? 0 : -ENOMEM;
}

static void rdisk_stop(struct rdisk *rd)
{
	cancel_work_sync(&rd->receive_work);
	cancel_work_sync(&rd->reconnect_work);
	destroy_workqueue(rd->wq);
}
