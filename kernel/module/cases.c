// SPDX-License-Identifier: GPL-2.0
/* Workqueues, items and what they do; the steps of a driven case; and what is printed of a case. */
#define pr_fmt(fmt) "wqjudge: " fmt
#include <linux/delay.h>
#include <linux/kthread.h>
#include <linux/slab.h>
#include <linux/vmalloc.h>
#include "series.h"
#include "wqjudge.h"

#define POLL_MS	3000

/* ---- workqueues -------------------------------------------------------------------------------- */

struct queue *make_queue(char kind, bool rescuer, int max_active)
{
	unsigned int flags = rescuer ? WQ_MEM_RECLAIM : 0;
	struct queue *q = kzalloc(sizeof(*q), GFP_KERNEL);
	static int made;
	char name[16];

	if (!q)
		return NULL;
	snprintf(name, sizeof(name), "q%x", made++);
	if (strlen(name) > WQ_NAME_MAX)
		return NULL;
	if (rescuer)
		snprintf(q->rescuer, sizeof(q->rescuer), RESCUER_COMM, name);
	switch (kind) {
	case 'p':
		q->wq = alloc_workqueue("%s", flags, max_active, name);
		break;
	case 'u':
		q->wq = alloc_workqueue("%s", flags | WQ_UNBOUND, max_active, name);
		break;
	case 'h':
		q->wq = alloc_workqueue("%s", flags | WQ_HIGHPRI, max_active, name);
		break;
	case 'g':
		q->wq = alloc_workqueue("%s", flags | WQ_UNBOUND | WQ_HIGHPRI, max_active, name);
		break;
	case 'o':
		q->wq = alloc_ordered_workqueue("%s", flags, name);
		break;
	}
	return q->wq ? q : NULL;
}

/* Who calls this: R, the rescuer of this workqueue; N, a normal worker; or ?, such as another workqueue's rescuer. */
char runs_here(const struct queue *q)
{
	char comm[TASK_COMM_LEN];

	if (!(current->flags & PF_WQ_WORKER))
		return '?';
	get_task_comm(comm, current);
	if (*q->rescuer && !strcmp(comm, q->rescuer))
		return 'R';
	if (!strncmp(comm, ANY_RESCUER_COMM, strlen(ANY_RESCUER_COMM)))
		return '?';
	return strncmp(comm, WORKER_COMM, strlen(WORKER_COMM)) ? '?' : 'N';
}

/* ---- what happens ------------------------------------------------------------------------------ */

static void note(struct judged_case *c, char what, int item, int arg, char by)
{
	unsigned long flags;

	spin_lock_irqsave(&c->lock, flags);
	c->happened++;
	if (c->nevents < MAX_EVENTS)
		c->events[c->nevents++] = (struct event){ .what = what, .by = by, .item = item, .arg = arg };
	spin_unlock_irqrestore(&c->lock, flags);
	wake_up_all(&c->news);
}

/*
 * Prints all that happened to a case, in order:
 *
 *	q3 Q3	item 3 is queued; it was pending already
 *	c3 C3	it is cancelled; it wasn't pending
 *	s3R	it begins to run, on the rescuer of its workqueue (or N, a normal worker, or ?)
 *	w3.1	it begins to wait for item 1; W: for its whole workqueue; d, k, z, m: drain, cancelsync, poll, await
 *	o3.1	this wait is over
 *	x3.1	it gives up polling
 *	f3	it ends
 *	|7 !7	the 7th driven step has happened; it doesn't happen
 */
static void print_events(struct judged_case *c)
{
	static char line[800];
	int i, n = 0;

	if (c->nevents == MAX_EVENTS)
		say("error: case %d has more events than are kept\n", c->number);
	for (i = 0; i < c->nevents; i++) {
		const struct event *e = &c->events[i];

		n += scnprintf(line + n, sizeof(line) - n, " %c%d", e->what, e->item);
		if (e->arg >= 0)
			n += scnprintf(line + n, sizeof(line) - n, ".%d", e->arg);
		if (e->by)
			n += scnprintf(line + n, sizeof(line) - n, "%c", e->by);
		if (n > 700 || i == c->nevents - 1) {
			say("events %d%s\n", c->number, line);
			n = 0;
		}
	}
}

/* ---- work functions ---------------------------------------------------------------------------- */

static bool is_unfinished(struct item *it)
{
	return work_pending(&it->work) || READ_ONCE(it->started) > READ_ONCE(it->finished);
}

static char letter_of(enum deed deed)
{
	switch (deed) {
	case FLUSH:
		return 'w';
	case FLUSHWQ:
		return 'W';
	case DRAINWQ:
		return 'd';
	case CANCEL_SYNC:
		return 'k';
	case POLL:
		return 'z';
	default:
		return 'm';
	}
}

/* Waits for an item without sleeping, as a loop with cond_resched() does. */
static void poll(struct item *it, struct item *target)
{
	unsigned long end = jiffies + msecs_to_jiffies(POLL_MS);

	while (is_unfinished(target)) {
		if (time_after(jiffies, end)) {
			note(it->c, 'x', it->number, target->number, 0);
			return;
		}
		cond_resched();
	}
}

/*
 * What a driver waits for by a completion, a bit or an element of a pool: that the item does its work, whoever queues
 * it, and be it later. It has then finished as often as it had been queued when the wait began, and once at least.
 */
static int awaited(struct item *target)
{
	return max(READ_ONCE(target->accepted), 1);
}

static void wait_by(struct item *it, struct act act)
{
	struct judged_case *c = it->c;
	struct item *target = c->items[act.arg];
	int times = awaited(target);

	it->act = act;
	note(c, letter_of(act.deed), it->number, act.arg, 0);
	WRITE_ONCE(it->doing, WAITS);
	switch (act.deed) {
	case FLUSH:
		flush_work(&target->work);
		break;
	case FLUSHWQ:
		flush_workqueue(target->q->wq);
		break;
	case DRAINWQ:
		drain_workqueue(target->q->wq);
		break;
	case CANCEL_SYNC:
		cancel_work_sync(&target->work);
		break;
	case POLL:
		poll(it, target);
		break;
	default:
		wait_event(c->news, READ_ONCE(target->finished) >= times);
	}
	/* It is noted first: so the driver's mark of the step that sees it comes behind the note. */
	note(c, 'o', it->number, act.arg, 0);
	WRITE_ONCE(it->doing, RUNS);
	wake_up_all(&c->news);
}

static void do_act(struct item *it, struct act act)
{
	if (act.deed == NAP)
		msleep(act.arg);
	else if (act.deed == QUEUE)
		queue_item(it->c->items[act.arg], WORK_CPU_UNBOUND);
	else
		wait_by(it, act);
}

/* Does what the driver says, until that is FINISH. The answer is whether it was. */
static bool is_driven(struct item *it)
{
	struct judged_case *c = it->c;
	struct act act;

	for (;;) {
		wait_event(c->news, READ_ONCE(it->next.deed) != NOTHING || READ_ONCE(c->over));
		if (c->over)
			return false;
		act = it->next;
		if (act.deed != FINISH)
			do_act(it, act);
		WRITE_ONCE(it->next.deed, NOTHING);
		if (act.deed == FINISH)
			return true;
	}
}

static void work_fn(struct work_struct *work)
{
	struct item *it = container_of(work, struct item, work);
	struct judged_case *c = it->c;
	int i;

	if (READ_ONCE(c->over))
		return;
	it->task = current;
	WRITE_ONCE(it->doing, RUNS);
	WRITE_ONCE(it->started, it->started + 1);
	note(c, 's', it->number, -1, runs_here(it->q));
	if (c->driven) {
		if (!is_driven(it))
			return;
	} else {
		wait_event(c->news, READ_ONCE(c->begun));
		for (i = 0; i < it->nacts; i++)
			do_act(it, it->acts[i]);
	}
	WRITE_ONCE(it->doing, IDLE);
	WRITE_ONCE(it->finished, it->finished + 1);
	note(c, 'f', it->number, -1, 0);
}

/*
 * A kernel starts an item as soon as its rescuer is idle, but in a driven case it has to stay pending until its step
 * `start` comes. So another item, the gate, is queued in front of it, in which the rescuer sleeps until then.
 */
static void gate_fn(struct work_struct *work)
{
	struct item *it = container_of(work, struct item, gate);
	struct judged_case *c = it->c;

	WRITE_ONCE(it->in_gate, true);
	wait_event(c->news, READ_ONCE(it->gate_open) || READ_ONCE(c->all_open) || READ_ONCE(c->over));
	WRITE_ONCE(it->gate_open, false);
	WRITE_ONCE(it->in_gate, false);
	wake_up_all(&c->news);
}

/* ---- cases ------------------------------------------------------------------------------------- */

struct judged_case *make_case(int number, bool driven)
{
	struct judged_case *c = vzalloc(sizeof(*c));

	if (!c)
		return NULL;
	c->number = number;
	c->driven = driven;
	spin_lock_init(&c->lock);
	init_waitqueue_head(&c->news);
	return c;
}

int add_queue(struct judged_case *c, char kind, bool rescuer, int max_active)
{
	struct queue *q;

	if (c->nqueues == MAX_QUEUES)
		return -ENOSPC;
	q = make_queue(kind, rescuer, max_active);
	if (!q)
		return -ENOMEM;
	c->queues[c->nqueues++] = q;
	return 0;
}

int add_item(struct judged_case *c, int queue)
{
	struct item *it;

	if (c->nitems == MAX_ITEMS)
		return -ENOSPC;
	if (queue < 0 || queue >= c->nqueues)
		return -EINVAL;
	it = kzalloc(sizeof(*it), GFP_KERNEL);
	if (!it)
		return -ENOMEM;
	INIT_WORK(&it->work, work_fn);
	INIT_WORK(&it->gate, gate_fn);
	it->c = c;
	it->q = c->queues[queue];
	it->number = c->nitems;
	c->items[c->nitems++] = it;
	return 0;
}

int add_act(struct item *it, enum deed deed, int arg)
{
	if (it->nacts == MAX_ACTS)
		return -ENOSPC;
	it->acts[it->nacts++] = (struct act){ .deed = deed, .arg = arg };
	return 0;
}

/*
 * The items that go by themselves act from now on. All are queued before: so which of them end, where they wait in a
 * circle, doesn't depend on the order in which the rescuers run.
 */
void begin_acts(struct judged_case *c)
{
	WRITE_ONCE(c->begun, true);
	wake_up_all(&c->news);
}

/* All queueings of a driven case are for CPU 0: a gate must be on the same list as its item, in front of it. */
void queue_item(struct item *it, int cpu)
{
	bool accepted;

	if (it->c->driven) {
		cpu = 0;
		queue_work_on(cpu, it->q->wq, &it->gate);
	}
	accepted = queue_work_on(cpu, it->q->wq, &it->work);
	if (accepted)
		it->accepted++;
	note(it->c, accepted ? 'q' : 'Q', it->number, -1, 0);
}

void cancel_item(struct item *it)
{
	bool was_pending;

	preempt_disable();	/* on one CPU nothing comes between the act and its note */
	was_pending = cancel_work(&it->work);
	if (was_pending)
		it->accepted--;
	note(it->c, was_pending ? 'c' : 'C', it->number, -1, 0);
	preempt_enable();
}

/* ---- driven steps ------------------------------------------------------------------------------ */

/*
 * How long nothing has to happen until it counts as not happening is told in looks, LOOK_MS apart, and not by a
 * clock: a guest whose host does something else for seconds is behind by one look, not by seconds. Between two looks
 * all that can run in the guest does.
 */
#define happens(c, condition)									\
({												\
	int left_ = looks;									\
	bool met_;										\
												\
	while (!(met_ = (condition)) && left_-- > 0)						\
		wait_event_timeout((c)->news, condition, msecs_to_jiffies(LOOK_MS));		\
	met_;											\
})

static bool sleeps(struct task_struct *task)
{
	return (READ_ONCE(task->__state) & TASK_UNINTERRUPTIBLE) && !READ_ONCE(task->on_rq);
}

/* Whether the wait of an item has begun, and sleeps. It is looked at several times: it may sleep for a lock before. */
static bool waits_asleep(struct item *it)
{
	int i;

	for (i = 0; i < 2; i++) {
		if (READ_ONCE(it->doing) != WAITS || !sleeps(it->task))
			return false;
		msleep(LOOK_MS);
	}
	return READ_ONCE(it->doing) == WAITS && sleeps(it->task);
}

/* The item makes a wait. It happens when the wait sleeps, or is over already. */
static bool step_wait(struct item *it, enum deed deed, int target)
{
	int left = looks;

	if (READ_ONCE(it->next.deed) != NOTHING)
		return false;
	it->next.arg = target;
	smp_store_release(&it->next.deed, deed);
	wake_up_all(&it->c->news);
	while (READ_ONCE(it->next.deed) != NOTHING && !waits_asleep(it)) {
		if (left-- == 0)
			return false;
		msleep(LOOK_MS);
	}
	return true;
}

static bool step_cancel(struct item *it)
{
	struct judged_case *c = it->c;
	bool was_pending = cancel_work(&it->work);

	if (was_pending)
		it->accepted--;
	note(c, was_pending ? 'c' : 'C', it->number, -1, 0);
	if (!cancel_work(&it->gate)) {
		WRITE_ONCE(it->gate_open, true);
		wake_up_all(&c->news);
		if (!happens(c, !READ_ONCE(it->in_gate)))
			return false;
	}
	return was_pending;
}

static bool step_start(struct item *it)
{
	int started = it->started;

	WRITE_ONCE(it->gate_open, true);
	wake_up_all(&it->c->news);
	return happens(it->c, READ_ONCE(it->started) != started);
}

static bool step_finish(struct item *it)
{
	int finished = it->finished;

	if (READ_ONCE(it->next.deed) != NOTHING)
		return false;
	WRITE_ONCE(it->next.deed, FINISH);
	wake_up_all(&it->c->news);
	return happens(it->c, READ_ONCE(it->finished) != finished);
}

/* One driven step. It is noted as | when it has happened, as ! if it doesn't; then no further one is tried. */
int drive(struct judged_case *c, const char *step, int item, int target)
{
	struct item *it = c->items[item];
	bool happened = true;

	if (!c->driven)
		return -EINVAL;
	if (c->failed)
		return 0;
	if (!strcmp(step, "queue"))
		queue_item(it, 0);
	else if (!strcmp(step, "cancel"))
		happened = step_cancel(it);
	else if (!strcmp(step, "start"))
		happened = step_start(it);
	else if (!strcmp(step, "over"))
		happened = happens(c, READ_ONCE(it->next.deed) == NOTHING);
	else if (!strcmp(step, "finish"))
		happened = step_finish(it);
	else if (target < 0)
		return -EINVAL;
	else if (!strcmp(step, "wait"))
		happened = step_wait(it, FLUSH, target);
	else if (!strcmp(step, "waitwq"))
		happened = step_wait(it, FLUSHWQ, target);
	else if (!strcmp(step, "await"))
		happened = step_wait(it, AWAIT, target);
	else if (!strcmp(step, "drain"))
		happened = step_wait(it, DRAINWQ, target);
	else if (!strcmp(step, "cancelsync"))
		happened = step_wait(it, CANCEL_SYNC, target);
	else
		return -EINVAL;
	c->nsteps++;
	note(c, happened ? '|' : '!', c->nsteps, -1, 0);
	c->failed = !happened;
	return 0;
}

/* ---- how a case stands ------------------------------------------------------------------------- */

static bool all_done(struct judged_case *c)
{
	int i;

	for (i = 0; i < c->nitems; i++)
		if (is_unfinished(c->items[i]))
			return false;
	return true;
}

/*
 * Between the moment in which a worker takes an item off the list and the first line of its function the item looks as
 * if it were finished: it is neither pending nor has it started. So it is looked at once more.
 */
static bool still_all_done(struct judged_case *c)
{
	int seen = READ_ONCE(c->happened);

	if (!all_done(c))
		return false;
	msleep(LOOK_MS);
	return all_done(c) && READ_ONCE(c->happened) == seen;
}

/* Waits until all is done, or until nothing has happened in so many looks. The answer is whether all is done. */
static bool settle(struct judged_case *c)
{
	int left = looks, seen = READ_ONCE(c->happened);

	while (!still_all_done(c)) {
		if (READ_ONCE(c->happened) != seen) {
			seen = READ_ONCE(c->happened);
			left = looks;
		} else if (left-- == 0) {
			return false;
		}
		msleep(LOOK_MS);
	}
	return true;
}

/*
 * Settles. Unless WORD is NULL it prints `state CASE WORD done|hung`, and for each item that isn't finished its number,
 * a p if it is pending, and an r if it runs, with the letter and the target of its wait while it waits, and a ~ if it
 * doesn't sleep in it: 0:p 3:rw1. The answer is whether all is done.
 */
bool print_state(struct judged_case *c, const char *word)
{
	static char line[800];
	bool done = settle(c);
	int i, n = 0;

	if (!word)
		return done;
	for (i = 0; i < c->nitems; i++) {
		struct item *it = c->items[i];

		if (!is_unfinished(it))
			continue;
		n += scnprintf(line + n, sizeof(line) - n, " %d:%s", i, work_pending(&it->work) ? "p" : "");
		if (it->started > it->finished)
			n += scnprintf(line + n, sizeof(line) - n, "r");
		if (it->started > it->finished && it->doing == WAITS)
			n += scnprintf(line + n, sizeof(line) - n, "%c%d%s", letter_of(it->act.deed), it->act.arg,
				       sleeps(it->task) ? "" : "~");
		if (n > 700) {
			say("part %d %s%s\n", c->number, word, line);
			n = 0;
		}
	}
	line[n] = 0;
	say("state %d %s %s%s\n", c->number, word, done ? "done" : "hung", line);
	return done;
}

/*
 * Ends a case. What hangs in it stays as it is, with its workqueues: they can't be destroyed. The answer is whether all
 * is done.
 */
bool end_case(struct judged_case *c)
{
	bool done;

	WRITE_ONCE(c->all_open, true);
	wake_up_all(&c->news);
	done = print_state(c, "end");
	print_events(c);
	/* A driven work function that runs because it was told nothing doesn't hang: now it returns. */
	WRITE_ONCE(c->over, true);
	wake_up_all(&c->news);
	return done;
}
