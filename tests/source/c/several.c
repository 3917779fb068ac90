/* Several names in one declaration, and an assignment whose call stands on the next line. */
static struct workqueue_struct *sv_first, *sv_second;
static struct work_struct sv_a, sv_b;

static void sv_work(struct work_struct *work)
{
}

static void sv_next_work(struct work_struct *work)
{
}

static int sv_start(struct sv *s)
{
	INIT_WORK(&sv_a, sv_work);
	INIT_WORK(&sv_b, sv_next_work);
	sv_first = alloc_workqueue("first", WQ_MEM_RECLAIM, 0);
	s->next_wq =
		alloc_workqueue("next", 0, 0);
	return 0;
}

static void sv_go(struct sv *s)
{
	queue_work(sv_first, &sv_a);
	queue_work(s->next_wq, &sv_b);
}
