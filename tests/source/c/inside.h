/* A struct that stands for the work_struct in it, and what sets that. */
struct in_work {
	struct list_head drain;
	struct work_struct work;
};

static inline void INIT_IN_WORK(struct in_work *iw, void (*fn)(struct work_struct *))
{
	INIT_WORK(&iw->work, fn);
	INIT_LIST_HEAD(&iw->drain);
}
