/* What the reader of tokens has to tell apart. The expected facts are in test_reader.py, written by hand. */
struct rd_ops {
	int (*send)(struct rd *r);
	void (*done)(struct rd *r), *private;
};

typedef struct rd {
	struct work_struct work;
	struct {
		struct completion done;
	} answer;
	union {
		struct rd *next;
		int number;
	};
	const struct rd_ops *ops;
} rd_t;

static struct workqueue_struct *rd_wq, *rd_other_wq;

#if 0
static void rd_never(void)
{
	rd_nothing(rd_wq);
}
#endif

static int rd_send(struct rd *r)
{
	return r->ops->send(r);
}

#ifdef CONFIG_RD
static void rd_work(struct work_struct *ws)
#else
static void rd_work(struct work_struct *ws, int unused)
#endif
{
	struct rd *r = container_of(ws, struct rd, work), *other;
	unsigned number;

	/* it isn't "(a call(" that stands in a comment */
	number = rd_send(r) + '"' + sizeof(struct rd);
	other = r->next;
	for (struct rd *next = other; next; next = next->next)
		wait_for_completion(&next->answer.done);
	(*r->ops->done)(r);
	r->ops->private = (struct rd *)other;
}

static const struct rd_ops rd_ops = {
	.send = rd_send,
	.private = &rd_wq,
};

int rd_init(struct rd *r, int wait)
{
	if (!wait)
		return 0;
	rd_other_wq =
		alloc_workqueue("rd",
				WQ_MEM_RECLAIM, 0);
	INIT_WORK(&r->work, rd_work);
	*r = (struct rd) { .ops = &rd_ops };
	return rd_other_wq ? 0 : -ENOMEM;
}
