/* Three items that wait, each for another one. */
struct sd {
	struct workqueue_struct *first_wq, *second_wq;
	struct work_struct send, log, retry, other;
	struct completion logged, sent;
	mempool_t pool;
};

static void sd_send(struct work_struct *work)
{
	struct sd *s = container_of(work, struct sd, send);

	wait_for_completion(&s->logged);
	complete(&s->sent);
}

static void sd_log(struct work_struct *work)
{
	struct sd *s = container_of(work, struct sd, log);
	void *element = mempool_alloc(&s->pool, in_interrupt() ? GFP_ATOMIC : GFP_NOIO);

	sd_use(element);
	complete(&s->logged);
}

static void sd_retry(struct work_struct *work)
{
	struct sd *s = container_of(work, struct sd, retry);

	queue_work(s->first_wq, &s->send);
	wait_for_completion(&s->sent);
}

static void sd_other(struct work_struct *work)
{
	struct sd *s = container_of(work, struct sd, other);

	queue_work(s->second_wq, &s->log);
}

void sd_start(struct sd *s)
{
	s->first_wq = alloc_workqueue("first", WQ_MEM_RECLAIM, 0);
	s->second_wq = alloc_workqueue("second", WQ_MEM_RECLAIM, 0);
	INIT_WORK(&s->send, sd_send);
	INIT_WORK(&s->log, sd_log);
	INIT_WORK(&s->retry, sd_retry);
	INIT_WORK(&s->other, sd_other);
	queue_work(s->first_wq, &s->retry);
	queue_work(s->second_wq, &s->other);
}
