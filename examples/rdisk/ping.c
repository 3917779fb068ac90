/* ping.c */

/* Asks the server whether it is still there, and waits for its answer. */
static void rdisk_ping(struct work_struct *work)
{
	struct rdisk *rd = container_of(work, struct rdisk, ping_work);

	rdisk_xmit_ping(rd);
	wait_for_completion(&rd->answered);
}

/* Answers have come in. The socket's callback queues this. */
static void rdisk_receive(struct work_struct *work)
{
	struct rdisk *rd = container_of(work, struct rdisk, receive_work);

	if (rdisk_is_pong(rd))
		queue_work(rd->pong_wq, &rd->pong_work);
}

/* The server is still there. */
static void rdisk_pong(struct work_struct *work)
{
	struct rdisk *rd = container_of(work, struct rdisk, pong_work);

	complete(&rd->answered);
}
