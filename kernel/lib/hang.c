// SPDX-License-Identifier: GPL-2.0
/*
 * @WHAT@
 *
 * Written by kernel/judge of wqplan. It makes these work items and workqueues, takes away that a worker can be created,
 * as if memory were short, queues the items, and says where each is. Then it gives memory back, and says so again.
 *
 * LOAD IT IN A VIRTUAL MACHINE THAT YOU DON'T NEED. For some ten seconds nobody there can create a process, and what
 * hangs may hang until it is rebooted. This file was tried on Linux 6.1 and 6.12.
 *
 *	echo 'obj-m := @NAME@.o' >Makefile
 *	make -C /lib/modules/$(uname -r)/build M=$PWD modules
 *	insmod @NAME@.ko
 *	dmesg | grep @NAME@:
 */
#define pr_fmt(fmt) KBUILD_MODNAME ": " fmt
#include <linux/completion.h>
#include <linux/cpumask.h>
#include <linux/delay.h>
#include <linux/fs.h>
#include <linux/module.h>
#include <linux/sched/debug.h>
#include <linux/slab.h>
#include <linux/workqueue.h>

/* ---- the declaration and the assignment --------------------------------------------------------- */

static struct queue {
	const char *name;
	unsigned int flags;
	int max_active;
	bool ordered;
	struct workqueue_struct *wq;
} queues[] = {
@QUEUES@
};

enum how { FLUSH_WORK = 1, FLUSH_WORKQUEUE, COMPLETION };
static const char * const words[] = {
	[FLUSH_WORK] = "in flush_work() of", [FLUSH_WORKQUEUE] = "in flush_workqueue() of that of",
	[COMPLETION] = "for the completion of",
};

static struct item {
	const char *name;
	int queue;
	struct { enum how how; int item; } waits[@MOST@];	/* in this order */
	struct work_struct work;
	struct completion done;
	struct task_struct *task;	/* that executes it */
	int waiting;			/* which wait it makes, from 1; 0 if none */
} items[] = {
@ITEMS@
};

/* The order in which they are queued. */
static const int order[] = { @ORDER@ };

static DECLARE_COMPLETION(all_queued);

static void work_fn(struct work_struct *work)
{
	struct item *it = container_of(work, struct item, work);
	int i;

	WRITE_ONCE(it->task, current);
	wait_for_completion(&all_queued);
	for (i = 0; i < ARRAY_SIZE(it->waits) && it->waits[i].how; i++) {
		struct item *target = &items[it->waits[i].item];

		WRITE_ONCE(it->waiting, i + 1);
		if (it->waits[i].how == FLUSH_WORK)
			flush_work(&target->work);
		else if (it->waits[i].how == FLUSH_WORKQUEUE)
			flush_workqueue(queues[target->queue].wq);
		else
			wait_for_completion(&target->done);
		WRITE_ONCE(it->waiting, 0);
	}
	complete_all(&it->done);
}

/*
 * Says where each item is. The answer is how many aren't finished that must be: while no worker can be created nobody
 * executes what is on a workqueue without a rescuer, and that is no hang until somebody waits for it.
 */
static int tell(const char *when, bool is_short)
{
	int i, unfinished = 0, left = 0;

	pr_info("%s:\n", when);
	for (i = 0; i < ARRAY_SIZE(items); i++) {
		struct item *it = &items[i];
		const char *name = queues[it->queue].name;
		int waiting = READ_ONCE(it->waiting);

		if (completion_done(&it->done)) {
			pr_info("  %s has finished\n", it->name);
			continue;
		}
		if (is_short && !(queues[it->queue].flags & WQ_MEM_RECLAIM))
			left++;
		else
			unfinished++;
		if (!READ_ONCE(it->task)) {
			pr_info("  %s is pending on %s\n", it->name, name);
		} else if (waiting) {
			pr_info("  %s runs on %s, and waits %s %s\n", it->name, name, words[it->waits[waiting - 1].how],
				items[it->waits[waiting - 1].item].name);
			sched_show_task(it->task);
		} else {
			pr_info("  %s runs on %s\n", it->name, name);
		}
	}
	pr_info("%s: %s\n", when, unfinished ? "IT HANGS" : left ? "all that have a rescuer have finished" :
		"all have finished");
	return unfinished;
}

static int make_queue(struct queue *q)
{
	q->wq = q->ordered ? alloc_ordered_workqueue("%s", q->flags, q->name) :
			     alloc_workqueue("%s", q->flags, q->max_active, q->name);
	return q->wq ? 0 : -ENOMEM;
}

/* ---- no worker can be created, and all sleep ---------------------------------------------------- */

static int blockers = 64;
module_param(blockers, int, 0444);
MODULE_PARM_DESC(blockers, "for each pool of workers, more than it has workers");

static DECLARE_COMPLETION(memory_is_back);
static struct blocker {
	struct work_struct work;
	struct workqueue_struct *wq;
	int cpu;
	bool started;
} *all_blockers;
static int nblockers;
/* One of each kind that has a pool of its own. */
static const struct queue kinds[] = {
	{ "block", 0 }, { "block", WQ_HIGHPRI }, { "block", WQ_UNBOUND }, { "block", WQ_UNBOUND | WQ_HIGHPRI },
	{ "block", 0, 0, true },
};

static void block_fn(struct work_struct *work)
{
	WRITE_ONCE(container_of(work, struct blocker, work)->started, true);
	wait_for_completion(&memory_is_back);
}

/* Makes the blockers of a kind for a CPU. An ordered workqueue executes one at a time, so each has its own. */
static int make_blockers(const struct queue *kind, int cpu)
{
	struct queue q = *kind;
	int i, err;

	for (i = 0; i < blockers; i++) {
		struct blocker *b = &all_blockers[nblockers];

		err = !i || q.ordered ? make_queue(&q) : 0;
		if (err)
			return err;
		INIT_WORK(&b->work, block_fn);
		b->wq = q.wq;
		b->cpu = cpu;
		nblockers++;
	}
	return 0;
}

static int make_all_blockers(void)
{
	int kind, cpu, err = 0;

	all_blockers = kcalloc(ARRAY_SIZE(kinds) * num_possible_cpus() * blockers, sizeof(*all_blockers), GFP_KERNEL);
	if (!all_blockers)
		return -ENOMEM;
	for_each_online_cpu(cpu)
		for (kind = 0; kind < ARRAY_SIZE(kinds) && !err; kind++)
			err = make_blockers(&kinds[kind], cpu);
	return err;
}

/* Of each pool's blockers some must be left: then it has no worker for what is queued now. */
static bool is_short(void)
{
	int i, k, started;

	for (i = 0; i < nblockers; i += blockers) {
		for (k = started = 0; k < blockers; k++)
			started += READ_ONCE(all_blockers[i + k].started);
		if (started == blockers)
			return false;
	}
	return true;
}

/* Reads or writes /proc/sys/kernel/threads-max. Below the number of threads no other one can be created. */
static int threads_max(char *text, size_t len, bool writes)
{
	struct file *file = filp_open("/proc/sys/kernel/threads-max", writes ? O_WRONLY : O_RDONLY, 0);
	loff_t at = 0;
	ssize_t n;

	if (IS_ERR(file))
		return PTR_ERR(file);
	n = writes ? kernel_write(file, text, len, &at) : kernel_read(file, text, len, &at);
	filp_close(file, NULL);
	return n < 0 ? n : 0;
}

static char usual[16];

static int begin_shortage(void)
{
	int i, err = make_all_blockers() ?: threads_max(usual, sizeof(usual) - 1, false) ?: threads_max("1", 1, true);

	if (err)
		return err;
	for (i = 0; i < nblockers; i++)
		queue_work_on(all_blockers[i].cpu, all_blockers[i].wq, &all_blockers[i].work);
	msleep(3000);
	if (is_short())
		return 0;
	pr_err("there is no shortage: load it with blockers=%d\n", 4 * blockers);
	return -EAGAIN;
}

static void end_shortage(void)
{
	int i;

	for (i = 0; i < nblockers; i++)
		cancel_work(&all_blockers[i].work);	/* a worker would be created for it */
	complete_all(&memory_is_back);
	if (*usual)
		threads_max(usual, strlen(usual), true);
	for (i = 0; i < nblockers; i++)
		flush_work(&all_blockers[i].work);
	for (i = 0; i < nblockers; i++)
		if (!i || all_blockers[i].wq != all_blockers[i - 1].wq)
			destroy_workqueue(all_blockers[i].wq);
	kfree(all_blockers);
}

/* ---- all of it ---------------------------------------------------------------------------------- */

static void destroy_queues(void)
{
	int i;

	for (i = 0; i < ARRAY_SIZE(queues); i++)
		if (queues[i].wq)
			destroy_workqueue(queues[i].wq);
}

static int __init hang_init(void)
{
	int i, err = 0;

	for (i = 0; i < ARRAY_SIZE(queues) && !err; i++)
		err = make_queue(&queues[i]);
	for (i = 0; i < ARRAY_SIZE(items); i++) {
		INIT_WORK(&items[i].work, work_fn);
		init_completion(&items[i].done);
	}
	err = err ?: begin_shortage();
	if (!err) {
		for (i = 0; i < ARRAY_SIZE(order); i++)
			queue_work_on(cpumask_first(cpu_online_mask), queues[items[order[i]].queue].wq, &items[order[i]].work);
		complete_all(&all_queued);
		msleep(3000);
		tell("while no worker can be created", true);
	}
	end_shortage();
	if (err) {
		destroy_queues();
		return err;
	}
	msleep(3000);
	if (tell("with memory again", false))
		__module_get(THIS_MODULE);	/* its functions are still executed */
	return 0;
}

static void __exit hang_exit(void)
{
	destroy_queues();
}
module_init(hang_init);
module_exit(hang_exit);
MODULE_LICENSE("GPL");
MODULE_DESCRIPTION("shows whether these work items hang while no worker can be created");
