/* Many that may end one wait, and many that one call by a pointer may call. */
struct mn_ops {
	void (*go)(struct mn *m);
};

static void mn_all(struct mn *m)
{
	flush_workqueue(m->wq);
}

static void mn_end(struct mn *m)
{
	complete(&m->done);
}

static void mn_red_go(struct mn *m)
{
	mn_all(m);
}

static void mn_green_go(struct mn *m)
{
	mn_all(m);
}

static void mn_blue_go(struct mn *m)
{
	mn_all(m);
}

static void mn_white_go(struct mn *m)
{
	mn_all(m);
}

static void mn_black_go(struct mn *m)
{
	mn_all(m);
}

static const struct mn_ops mn_red_ops = { .go = mn_red_go };
static const struct mn_ops mn_green_ops = { .go = mn_green_go };
static const struct mn_ops mn_blue_ops = { .go = mn_blue_go };
static const struct mn_ops mn_white_ops = { .go = mn_white_go };
static const struct mn_ops mn_black_ops = { .go = mn_black_go };

static void mn_red(struct work_struct *work)
{
	struct mn *m = container_of(work, struct mn, red_work);

	mn_end(m);
}

static void mn_green(struct work_struct *work)
{
	struct mn *m = container_of(work, struct mn, green_work);

	mn_end(m);
}

static void mn_blue(struct work_struct *work)
{
	struct mn *m = container_of(work, struct mn, blue_work);

	mn_end(m);
}

static void mn_white(struct work_struct *work)
{
	struct mn *m = container_of(work, struct mn, white_work);

	mn_end(m);
}

static void mn_black(struct work_struct *work)
{
	struct mn *m = container_of(work, struct mn, black_work);

	mn_end(m);
}

static void mn_wait(struct work_struct *work)
{
	struct mn *m = container_of(work, struct mn, wait_work);

	m->ops->go(m);
	wait_for_completion(&m->done);
}

void mn_start(struct mn *m)
{
	m->wq = alloc_workqueue("mn", WQ_MEM_RECLAIM, 0);
	INIT_WORK(&m->wait_work, mn_wait);
	INIT_WORK(&m->red_work, mn_red);
	queue_work(m->wq, &m->red_work);
	INIT_WORK(&m->green_work, mn_green);
	queue_work(m->wq, &m->green_work);
	INIT_WORK(&m->blue_work, mn_blue);
	queue_work(m->wq, &m->blue_work);
	INIT_WORK(&m->white_work, mn_white);
	queue_work(m->wq, &m->white_work);
	INIT_WORK(&m->black_work, mn_black);
	queue_work(m->wq, &m->black_work);
}
