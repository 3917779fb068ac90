/* Items are handed to a function and to macros, which queue them; one macro is used nowhere. */
#define qu_queue_work(w) queue_work(qu_wq, (w))
#define qu_queue_delayed_work(w, d) queue_delayed_work(qu_wq, (w), (d))
#define qu_unused_queue_work(w) queue_work(qu_wq, (w))

static struct workqueue_struct *qu_wq, *qu_other_wq;

static void qu_kick(struct workqueue_struct *wq, struct work_struct *work)
{
	queue_work(wq, work);
}

static void qu_first(struct work_struct *work)
{
}

static void qu_second(struct work_struct *work)
{
	struct qu *q = container_of(work, struct qu, second_work);

	qu_queue_work(&q->first_work);
}

static void qu_third(struct work_struct *work)
{
	struct qu *q = container_of(work, struct qu, third_work);

	qu_kick(qu_other_wq, &q->second_work);
}

void qu_start(struct qu *q)
{
	qu_wq = alloc_workqueue("qu", WQ_MEM_RECLAIM, 0);
	qu_other_wq = alloc_workqueue("other", WQ_MEM_RECLAIM, 0);
	INIT_WORK(&q->first_work, qu_first);
	INIT_WORK(&q->second_work, qu_second);
	INIT_DELAYED_WORK(&q->third_work, qu_third);
	qu_queue_delayed_work(&q->third_work, 1);
	qu_kick(qu_wq, &q->lost_work);
}
