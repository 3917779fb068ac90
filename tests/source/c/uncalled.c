/* A driver whose functions an item of the layer above calls: that layer isn't here. */
static blk_status_t un_queue_rq(struct blk_mq_hw_ctx *hctx, const struct blk_mq_queue_data *bd)
{
	struct un *u = hctx->driver_data;

	un_wait(u);
	flush_work(&u->work);
	return BLK_STS_OK;
}

static void un_wait(struct un *u)
{
	wait_for_completion(&u->connected);
}

static void un_commit_rqs(struct blk_mq_hw_ctx *hctx)
{
	complete(&u->connected);
}

static int un_map_queues(struct un_layer *layer)
{
	wait_for_completion(&layer->mapped);
	return 0;
}

static const struct blk_mq_ops un_mq_ops = {
	.queue_rq = un_queue_rq,
	.commit_rqs = un_commit_rqs,
};

static const struct un_layer_ops un_layer_ops = {
	.map = un_map_queues,
};

static void un_work(struct work_struct *work)
{
	struct un *u = container_of(work, struct un, work);

	u->layer->ops->map(u->layer);
}

void un_start(struct un *u)
{
	u->layer->ops = &un_layer_ops;
	INIT_WORK(&u->work, un_work);
	kblockd_schedule_work(&u->work);
}
