/* As fs/afs/rxrpc.c and cmservice.c: the function of an item stands in a table, of another struct than the work. */
#include "typed.h"

static void ty_first(struct work_struct *work)
{
}

static void ty_second(struct work_struct *work)
{
}

static void ty_third(struct work_struct *work)
{
}

static const struct ty_type ty_one = {
	.name = "one",
	.work = ty_first,
};

static const struct ty_type ty_others[] = {
	[1] = { .work = ty_second },
	{ "three", ty_third },
};

void ty_queue(struct ty_call *call)
{
	INIT_WORK(&call->work, call->type->work);
	queue_work(call->wq, &call->work);
}

void ty_open(struct ty_call *call, int which)
{
	call->type = which ? &ty_others[which] : &ty_one;
	call->wq = alloc_workqueue("ty", WQ_MEM_RECLAIM, 0);
}
