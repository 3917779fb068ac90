// SPDX-License-Identifier: GPL-2.0
/*
 * The shortage: no worker can be created, and all that exist sleep. So only rescuers execute work, each that of its
 * own workqueue. (Lines are those of kernel/workqueue.c in Linux 6.1.192; 6.12.117 does the same.)
 *
 * No worker can be created. The guest has set kernel.threads-max below the number of its threads. From then on
 * copy_process() (kernel/fork.c:2252, "nr_threads >= max_threads") refuses each new one. So kthread_create_on_node()
 * in create_worker() (1952) fails, and create_worker() leaves by the same `goto fail` as without memory, and returns
 * NULL.
 *
 * All workers sleep. For each pool there are more blockers than it has workers: items that sleep until the shortage
 * ends, on workqueues without a rescuer. Whenever the last running worker of a pool goes to sleep, the pool wakes an
 * idle one, and that one takes the next blocker. (wq_worker_sleeping(), need_more_worker(): the list isn't empty, and
 * nobody runs.)
 *
 * So the pool calls for help. The last idle worker doesn't execute work: it becomes the manager (worker_thread(),
 * 2411: may_start_working() is false), and tries to create a worker, again and again, in
 * maybe_create_worker() (2099). It stays there, since blockers are left on the list, so that need_to_create_worker()
 * holds. Meanwhile the pool's mayday timer runs: every 100 ms pool_mayday_timeout() (2056) calls the rescuer of each
 * workqueue that has an item on the list.
 *
 * Nothing of this looks into the pools, so it is tried whether it is so: see is_short(). And each execution of a case
 * tells who runs it.
 */
#define pr_fmt(fmt) "wqjudge: " fmt
#include <linux/cpumask.h>
#include <linux/delay.h>
#include <linux/slab.h>
#include "wqjudge.h"

#define NBLOCKERS	32	/* for each pool */
#define QUIET_MS	1500	/* more than CREATE_COOLDOWN (1 s), and many mayday intervals */
#define MAX_POOLS	32

struct blocker {
	struct work_struct work;
	struct queue *q;
	bool started, released;
};

/* An item that only notes who executes it. */
struct witness {
	struct work_struct work;
	struct queue *q;
	char by;		/* 0 until it is executed */
};

/* A kind of workqueue on a CPU: what is queued to such a one there is executed by the workers of one pool. */
static struct place {
	char kind;
	int cpu;
	struct blocker blockers[NBLOCKERS];
	struct witness with, without;	/* on workqueues with and without a rescuer */
} *places[MAX_POOLS];
static int nplaces;

static DECLARE_WAIT_QUEUE_HEAD(release);
static bool all_released;
static atomic_t nstarted = ATOMIC_INIT(0);

static void block_fn(struct work_struct *work)
{
	struct blocker *b = container_of(work, struct blocker, work);

	WRITE_ONCE(b->started, true);
	atomic_inc(&nstarted);
	wait_event(release, READ_ONCE(b->released) || READ_ONCE(all_released));
}

static void witness_fn(struct work_struct *work)
{
	struct witness *w = container_of(work, struct witness, work);

	WRITE_ONCE(w->by, runs_here(w->q));
}

static int make_witness(struct witness *w, char kind, bool rescuer)
{
	INIT_WORK(&w->work, witness_fn);
	w->q = make_queue(kind, rescuer, 0);
	return w->q ? 0 : -ENOMEM;
}

/* An ordered workqueue executes one blocker at a time, so each has its own. */
static int make_place(char kind, int cpu)
{
	struct place *p = kzalloc(sizeof(*p), GFP_KERNEL);
	struct queue *q = NULL;
	int i;

	if (!p || nplaces == MAX_POOLS)
		return -ENOMEM;
	p->kind = kind;
	p->cpu = cpu;
	for (i = 0; i < NBLOCKERS; i++) {
		if (!q || kind == 'o')
			q = make_queue(kind, false, 0);
		if (!q)
			return -ENOMEM;
		INIT_WORK(&p->blockers[i].work, block_fn);
		p->blockers[i].q = q;
	}
	places[nplaces++] = p;
	return make_witness(&p->with, kind, true) ?: make_witness(&p->without, kind, false);
}

int make_blockers(void)
{
	static const char kinds[] = "puohg";	/* make_queue() */
	const char *kind;
	int cpu, err = 0;

	if (nplaces)
		return -EBUSY;
	for_each_online_cpu(cpu)
		for (kind = kinds; *kind && !err; kind++)
			err = make_place(*kind, cpu);
	return err;
}

static void queue_blockers(void)
{
	int i, k;

	WRITE_ONCE(all_released, false);
	for (i = 0; i < nplaces; i++) {
		for (k = 0; k < NBLOCKERS; k++) {
			struct blocker *b = &places[i]->blockers[k];

			b->started = b->released = false;
			queue_work_on(places[i]->cpu, b->q->wq, &b->work);
		}
	}
}

static void quiet(void)
{
	int started;

	do {
		started = atomic_read(&nstarted);
		msleep(QUIET_MS);
	} while (started != atomic_read(&nstarted));
}

static int nstarted_at(const struct place *p)
{
	int k, n = 0;

	for (k = 0; k < NBLOCKERS; k++)
		n += READ_ONCE(p->blockers[k].started);
	return n;
}

static void ask_witnesses(void)
{
	int i;

	for (i = 0; i < nplaces; i++) {
		struct place *p = places[i];

		p->with.by = p->without.by = 0;
		queue_work_on(p->cpu, p->without.q->wq, &p->without.work);
		queue_work_on(p->cpu, p->with.q->wq, &p->with.work);
	}
	msleep(QUIET_MS);
}

static char shown(char by)
{
	return by ?: '-';
}

/*
 * Is it so that at each place rescuers alone execute work? Blockers are left; of two items that are queued now, that
 * on a workqueue with a rescuer is executed by this one, and the other isn't executed at all.
 */
static bool is_short(void)
{
	bool right = true;
	int i;

	ask_witnesses();
	for (i = 0; i < nplaces; i++) {
		struct place *p = places[i];
		char with = READ_ONCE(p->with.by), without = READ_ONCE(p->without.by);
		int started = nstarted_at(p);

		say("place %c%d: %d of %d blockers run; with a rescuer %c, without %c\n", p->kind, p->cpu, started,
		    NBLOCKERS, shown(with), shown(without));
		right &= started < NBLOCKERS && with == 'R' && !without;
	}
	return right;
}

/* All pools are short of workers afterwards, or this fails. */
int begin_shortage(void)
{
	if (!nplaces)
		return -EINVAL;
	queue_blockers();
	quiet();
	if (!is_short()) {
		say("error: there is no shortage, or not the right one\n");
		return -EAGAIN;
	}
	say("short\n");
	return 0;
}

/* After begin_shortage(): the blockers on the lists are taken off, and so many that sleep are released. */
int free_workers(int count)
{
	int i, k, n, err;

	err = begin_shortage();
	if (err)
		return err;
	for (i = 0; i < nplaces; i++) {
		for (k = n = 0; k < NBLOCKERS; k++) {
			struct blocker *b = &places[i]->blockers[k];

			if (!READ_ONCE(b->started))
				cancel_work(&b->work);
			else if (n++ < count)
				WRITE_ONCE(b->released, true);
		}
	}
	wake_up_all(&release);
	msleep(QUIET_MS);
	for (i = 0; i < nplaces; i++)
		if (READ_ONCE(places[i]->without.by) != 'N') {
			say("error: at place %c%d no worker is free\n", places[i]->kind, places[i]->cpu);
			return -EAGAIN;
		}
	say("free %d\n", count);
	return 0;
}

/* The blockers that are left on the lists are taken off: they would have workers created for them. */
int end_shortage(void)
{
	int i, k;

	for (i = 0; i < nplaces; i++)
		for (k = 0; k < NBLOCKERS; k++)
			cancel_work(&places[i]->blockers[k].work);
	WRITE_ONCE(all_released, true);
	wake_up_all(&release);
	for (i = 0; i < nplaces; i++)
		for (k = 0; k < NBLOCKERS; k++)
			flush_work(&places[i]->blockers[k].work);
	say("plenty\n");
	return 0;
}
