/* A file system's item: what iput does, and who calls writepages, is in no given file. */
static void ew_work(struct work_struct *work)
{
	struct ew *e = container_of(work, struct ew, work);

	iput(e->inode);
	evict_inodes(e->sb);
	e->mapping->a_ops->writepages(e->mapping, e->wbc);
}

void ew_init(struct ew *e)
{
	INIT_WORK(&e->work, ew_work);
}
