/* Calls by arrays of functions, and by other expressions. */
struct ar_ops {
	void (*step[2])(struct ar *a);
};

static void ar_one(struct ar *a)
{
	flush_work(&a->one);
}

static void ar_two(struct ar *a)
{
	flush_work(&a->two);
}

static void ar_three(struct ar *a)
{
	flush_work(&a->three);
}

static void ar_four(struct ar *a)
{
	flush_work(&a->four);
}

static void ar_five(struct ar *a)
{
	flush_work(&a->five);
}

static void (*ar_table[])(struct ar *a) = { ar_one };
static const struct ar_ops ar_steps = { .step = { [1] = ar_two } };

static void ar_work(struct work_struct *work)
{
	struct ar *a = container_of(work, struct ar, work);
	const struct ar_ops *ops = &ar_steps;
	void (*f)(struct ar *a) = ar_three;
	void (*mine[2])(struct ar *a) = { ar_four };

	ar_table[0](a);
	ops->step[1](a);
	(*f)(a);
	mine[a->n](a);
	(a->n ? ar_five : ar_far)(a);
	ar_pick(0)(a);
	(ar_size)(a);
}

static void ar_end(struct work_struct *work)
{
}

void ar_start(struct ar *a)
{
	INIT_WORK(&a->work, ar_work);
	INIT_WORK(&a->one, ar_end);
	INIT_WORK(&a->two, ar_end);
	INIT_WORK(&a->three, ar_end);
	INIT_WORK(&a->four, ar_end);
	INIT_WORK(&a->five, ar_end);
}
