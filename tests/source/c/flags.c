/* Whether there is a rescuer: for sure, for sure not, and what isn't known. */
#define FL_FLAGS (WQ_UNBOUND | WQ_MEM_RECLAIM)
#define FL_MORE(flags) (WQ_SYSFS | \
			(flags))

struct workqueue_struct *fl_make(struct fl *f, unsigned int given)
{
	unsigned int kept = WQ_HIGHPRI;
	unsigned int perhaps = 0;

	kept |= WQ_SYSFS;
	if (f->reclaims)
		perhaps |= WQ_MEM_RECLAIM;
	f->a = alloc_workqueue("always", f->b ? WQ_MEM_RECLAIM : WQ_MEM_RECLAIM | WQ_HIGHPRI, 0);
	f->b = alloc_workqueue("sometimes", f->c ? WQ_MEM_RECLAIM : 0, 0);
	f->c = alloc_workqueue("given", given, 0);
	f->d = alloc_workqueue("macro", FL_FLAGS, 0);
	f->e = alloc_workqueue("far", FAR_FLAGS, 0);
	f->f = alloc_workqueue("perhaps", perhaps, 0);
	f->g = alloc_workqueue("bh", WQ_BH, 0);
	f->h = alloc_workqueue("never", WQ_UNBOUND | WQ_HIGHPRI, 1);
	f->i = create_workqueue("old");
	f->k = alloc_workqueue("more", FL_MORE(WQ_UNBOUND), 0);
	f->l = alloc_workqueue("most", FL_MORE(WQ_MEM_RECLAIM), 0);
	f->j = alloc_workqueue("kept", kept, 0);
	return f->a ? f->a : alloc_workqueue("one", 0, 0), alloc_workqueue("two", WQ_MEM_RECLAIM, 0);
}
