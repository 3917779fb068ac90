/* A file that includes another one. */
#include "part.c"

static void whole_work(struct work_struct *work)
{
	part_stop(container_of(work, struct whole, work));
}

static void whole_end(struct work_struct *work)
{
}

void whole_init(struct whole *w)
{
	INIT_WORK(&w->work, whole_work);
	INIT_WORK(&w->end_work, whole_end);
}
