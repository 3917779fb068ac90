// SPDX-License-Identifier: GPL-2.0
/*
 * Takes away that a worker of the workqueues can be created, and keeps all workers asleep: then only rescuers execute
 * work. For a virtual machine that nobody needs, of one NUMA node: nobody there can create a process meanwhile.
 *
 *	echo COMMAND,COMMAND,.. >/sys/module/noworker/parameters/do
 *
 *	short		no worker can be created, since kernel.threads-max is set below the number of threads
 *	busy		no limit is set: whether a worker can be created is up to memory
 *	stuck		from now on the disk /dev/stuck, which is there for dirty pages, doesn't answer
 *	up		lo is up again
 *	wait SECONDS
 *	show NAME	to the log, the stack of each process whose name begins so
 *	over		all this has an end
 *
 * It is one write, as who begins a program, or looks into /proc, needs a process or memory. `short` and `busy` have all
 * workers sleep: for each pool more items are queued that sleep than it has workers. If they all run, it fails.
 */
#define pr_fmt(fmt) KBUILD_MODNAME ": " fmt
#include <linux/bio.h>
#include <linux/blkdev.h>
#include <linux/completion.h>
#include <linux/cpumask.h>
#include <linux/delay.h>
#include <linux/fs.h>
#include <linux/module.h>
#include <linux/netdevice.h>
#include <linux/rtnetlink.h>
#include <linux/sched/debug.h>
#include <linux/sched/mm.h>
#include <linux/sched/signal.h>
#include <linux/slab.h>
#include <linux/version.h>
#include <linux/workqueue.h>
#include <net/net_namespace.h>

static int blockers = 256;
module_param(blockers, int, 0444);
MODULE_PARM_DESC(blockers, "for each pool of workers, more than it has workers");

/* Workers ------------------------------------------------------------------------------------------ */

/* One of each kind that has a pool of its own: per CPU and unbound, with and without WQ_HIGHPRI. */
static const unsigned int kinds[] = { 0, WQ_HIGHPRI, WQ_UNBOUND, WQ_UNBOUND | WQ_HIGHPRI };

static struct blocker {
	struct work_struct work;
	struct workqueue_struct *wq;
	int cpu;
	bool started;
} *all;
static int nall;
static struct workqueue_struct *queues[ARRAY_SIZE(kinds)];
static DECLARE_COMPLETION(over);

static void block_fn(struct work_struct *work)
{
	WRITE_ONCE(container_of(work, struct blocker, work)->started, true);
	wait_for_completion(&over);
}

static void make_blockers(void)
{
	int kind, cpu, i;

	nall = 0;
	for_each_online_cpu(cpu)
		for (kind = 0; kind < ARRAY_SIZE(kinds); kind++)
			for (i = 0; i < blockers; i++) {
				struct blocker *b = &all[nall++];

				INIT_WORK(&b->work, block_fn);
				b->wq = queues[kind];
				b->cpu = cpu;
				b->started = false;
			}
}

/* Of each pool's blockers some must be left: then it has no worker for what is queued now. */
static bool is_short(void)
{
	int i, k, started;

	for (i = 0; i < nall; i += blockers) {
		for (k = started = 0; k < blockers; k++)
			started += READ_ONCE(all[i + k].started);
		if (started == blockers)
			return false;
	}
	return true;
}

static char usual[16];	/* of kernel.threads-max; empty where no limit is set */

static int threads_max(char *text, size_t len, bool writes)
{
	struct file *file = filp_open("/proc/sys/kernel/threads-max", writes ? O_WRONLY : O_RDONLY, 0);
	loff_t at = 0;
	ssize_t n;

	if (IS_ERR(file))
		return PTR_ERR(file);
	n = writes ? kernel_write(file, text, len, &at) : kernel_read(file, text, len, &at);
	filp_close(file, NULL);
	return n < 0 ? n : 0;
}

static void end_shortage(void)
{
	int i;

	if (!nall)
		return;
	for (i = 0; i < nall; i++)
		cancel_work(&all[i].work);	/* a worker would be created for it */
	complete_all(&over);
	if (*usual)
		threads_max(usual, strlen(usual), true);
	for (i = 0; i < nall; i++)
		flush_work(&all[i].work);
	nall = 0;
	pr_info("over\n");
}

static int begin_shortage(bool limits)
{
	int i, err = 0;

	if (nall)
		return -EBUSY;
	reinit_completion(&over);
	make_blockers();
	memset(usual, 0, sizeof(usual));
	if (limits)
		err = threads_max(usual, sizeof(usual) - 1, false) ?: threads_max("1", 1, true);
	if (err) {
		nall = 0;
		return err;
	}
	for (i = 0; i < nall; i++)
		queue_work_on(all[i].cpu, all[i].wq, &all[i].work);
	msleep(3000);
	if (!is_short()) {
		pr_err("there is no shortage: load it with blockers=%d\n", 4 * blockers);
		return -EAGAIN;
	}
	pr_info("no worker can be created, and all sleep\n");
	return 0;
}

/* The disk ----------------------------------------------------------------------------------------- */

/* Of the requests that have no answer so many are taken; who has one more waits, as for a tag. */
#define ROOM 64
static DEFINE_SPINLOCK(disk_lock);
static DECLARE_WAIT_QUEUE_HEAD(room);
static struct bio_list held = BIO_EMPTY_LIST;
static int nheld;
static bool is_stuck;
static struct gendisk *disk;
static int major;

static bool takes(struct bio *bio)
{
	unsigned long flags;
	bool answers, taken;

	spin_lock_irqsave(&disk_lock, flags);
	answers = !is_stuck;
	taken = answers || nheld < ROOM;
	if (!answers && taken) {
		bio_list_add(&held, bio);
		nheld++;
	}
	spin_unlock_irqrestore(&disk_lock, flags);
	if (answers) {
		if (bio_data_dir(bio) == READ)
			zero_fill_bio(bio);
		bio_endio(bio);
	}
	return taken;
}

static void disk_submit_bio(struct bio *bio)
{
	wait_event(room, takes(bio));
}

static void disk_answers(void)
{
	struct bio_list ended;
	struct bio *bio;

	spin_lock_irq(&disk_lock);
	is_stuck = false;
	ended = held;
	bio_list_init(&held);
	nheld = 0;
	spin_unlock_irq(&disk_lock);
	while ((bio = bio_list_pop(&ended)))
		bio_endio(bio);
	wake_up_all(&room);
}

static const struct block_device_operations disk_ops = { .owner = THIS_MODULE, .submit_bio = disk_submit_bio };

static int make_disk(void)
{
	int err;

	major = register_blkdev(0, "stuck");
	if (major < 0)
		return major;
#if LINUX_VERSION_CODE < KERNEL_VERSION(6, 9, 0)
	disk = blk_alloc_disk(NUMA_NO_NODE);
	err = disk ? 0 : -ENOMEM;
#else
	disk = blk_alloc_disk(NULL, NUMA_NO_NODE);
	err = PTR_ERR_OR_ZERO(disk);
#endif
	if (!err) {
		disk->major = major;
		disk->minors = 1;
		disk->fops = &disk_ops;
		disk->flags |= GENHD_FL_NO_PART;
		strcpy(disk->disk_name, "stuck");
		set_capacity(disk, 8 << 20);
		err = add_disk(disk);
		if (err)
			put_disk(disk);
	}
	if (err)
		unregister_blkdev(major, "stuck");
	return err;
}

/* Commands ----------------------------------------------------------------------------------------- */

static void lo_up(void)
{
	struct net_device *lo = init_net.loopback_dev;

	rtnl_lock();
	dev_change_flags(lo, lo->flags | IFF_UP, NULL);
	rtnl_unlock();
}

static void show(const char *name)
{
	struct task_struct *task;

	rcu_read_lock();
	for_each_process(task)
		if (!strncmp(task->comm, name, strlen(name)))
			sched_show_task(task);
	rcu_read_unlock();
}

static int obey(char *word)
{
	char *argument = strchr(word, ' ');
	unsigned int seconds;

	if (argument)
		*argument++ = 0;
	if (!strcmp(word, "short") || !strcmp(word, "busy"))
		return begin_shortage(*word == 's');
	if (!strcmp(word, "stuck"))
		is_stuck = true;
	else if (!strcmp(word, "up"))
		lo_up();
	else if (!strcmp(word, "wait") && argument && !kstrtouint(argument, 10, &seconds))
		msleep(1000 * seconds);
	else if (!strcmp(word, "show") && argument)
		show(argument);
	else if (!strcmp(word, "over")) {
		disk_answers();
		end_shortage();
	} else
		return -EINVAL;
	return 0;
}

/* Who frees memory may come to wait, and this is to look at those who do. So it takes of what is kept for such. */
static int set_do(const char *text, const struct kernel_param *param)
{
	unsigned int flags = memalloc_noreclaim_save();
	char *copy = kstrdup(text, GFP_KERNEL), *rest = copy, *word;
	int err = copy ? 0 : -ENOMEM;

	while (!err && (word = strsep(&rest, ",\n")))
		if (*word)
			err = obey(word);
	if (err) {
		disk_answers();
		end_shortage();
	}
	kfree(copy);
	memalloc_noreclaim_restore(flags);
	return err;
}

static const struct kernel_param_ops do_ops = { .set = set_do };
module_param_cb(do, &do_ops, NULL, 0200);

static void destroy_queues(void)
{
	int i;

	for (i = 0; i < ARRAY_SIZE(queues); i++)
		if (queues[i])
			destroy_workqueue(queues[i]);
	kvfree(all);
}

static int __init noworker_init(void)
{
	int i, err = -ENOMEM;

	all = kvcalloc(ARRAY_SIZE(kinds) * num_possible_cpus() * blockers, sizeof(*all), GFP_KERNEL);
	for (i = 0; all && i < ARRAY_SIZE(queues); i++) {
		queues[i] = alloc_workqueue("noworker%d", kinds[i], 0, i);
		if (!queues[i])
			break;
	}
	if (all && i == ARRAY_SIZE(queues))
		err = make_disk();
	if (err)
		destroy_queues();
	return err;
}

static void __exit noworker_exit(void)
{
	disk_answers();
	end_shortage();
	del_gendisk(disk);
	put_disk(disk);
	unregister_blkdev(major, "stuck");
	destroy_queues();
}
module_init(noworker_init);
module_exit(noworker_exit);
MODULE_LICENSE("GPL");
MODULE_DESCRIPTION("keeps all workers asleep while no other one can be created");
