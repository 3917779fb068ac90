/* SPDX-License-Identifier: GPL-2.0 */
#ifndef WQJUDGE_H
#define WQJUDGE_H

#include <linux/sched.h>
#include <linux/spinlock.h>
#include <linux/wait.h>
#include <linux/workqueue.h>

#define MAX_QUEUES	256
#define MAX_ITEMS	256
#define MAX_ACTS	64	/* of an item that goes by itself */
#define MAX_EVENTS	4096	/* of a case */

#define LOOK_MS		20

extern int looks;

/*
 * Prints a line to the console. All lines are numbered, so whoever reads them sees if one is lost: printk() drops
 * what its buffer has no room for.
 */
#define say(fmt, ...) pr_err("%d " fmt, next_line(), ##__VA_ARGS__)

int next_line(void);

/* A workqueue, and what its rescuer's thread is called: nothing, if it has none. */
struct queue {
	struct workqueue_struct *wq;
	char rescuer[TASK_COMM_LEN];
};

/* What a work function does, by itself or as the driver says. The argument of all but NAP is an item. */
enum deed {
	NOTHING,
	FLUSH,		/* flush_work() */
	FLUSHWQ,	/* flush_workqueue() of the item's workqueue */
	DRAINWQ,	/* drain_workqueue() of the item's workqueue */
	CANCEL_SYNC,	/* cancel_work_sync() */
	POLL,		/* waits in a loop that doesn't sleep, for POLL_MS at most */
	AWAIT,		/* a completion: see awaited() */
	QUEUE,		/* queue_work() */
	NAP,		/* sleeps for so many milliseconds */
	FINISH,		/* returns */
};

struct act {
	enum deed deed;
	int arg;
};

enum doing { IDLE, RUNS, WAITS };

struct judged_case;

struct item {
	struct work_struct work;
	struct work_struct gate;	/* of a driven case: see gate_fn() */
	struct judged_case *c;
	struct queue *q;
	int number;

	int nacts;
	struct act acts[MAX_ACTS];

	/* the gate, and what the driver wants done next */
	bool gate_open, in_gate;
	struct act next;

	/* what has happened */
	int accepted;			/* queueings, less those that were cancelled */
	int started, finished;
	enum doing doing;
	struct act act;			/* the last one, or that in which it waits */
	struct task_struct *task;	/* that runs it */
};

/* A letter, as it is printed: see print_events(). */
struct event {
	char what, by;
	short item, arg;
};

struct judged_case {
	int number;
	bool driven;
	int nqueues, nitems;
	struct queue *queues[MAX_QUEUES];
	struct item *items[MAX_ITEMS];

	bool begun;			/* items that go by themselves may act */
	bool all_open;			/* gates are */
	bool over;			/* driven work functions return */
	bool failed;			/* a driven step didn't happen */
	int nsteps;

	spinlock_t lock;		/* of what follows */
	wait_queue_head_t news;
	int happened;			/* how often something did */
	int nevents;
	struct event events[MAX_EVENTS];
};

/* cases.c */
struct queue *make_queue(char kind, bool rescuer, int max_active);
char runs_here(const struct queue *q);
struct judged_case *make_case(int number, bool driven);
int add_queue(struct judged_case *c, char kind, bool rescuer, int max_active);
int add_item(struct judged_case *c, int queue);
int add_act(struct item *it, enum deed deed, int arg);
void queue_item(struct item *it, int cpu);
void cancel_item(struct item *it);
void begin_acts(struct judged_case *c);
int drive(struct judged_case *c, const char *step, int item, int target);
bool print_state(struct judged_case *c, const char *word);
bool end_case(struct judged_case *c);

/* kernel_log.c */
int print_busy(void);

/* shortage.c */
int make_blockers(void);
int begin_shortage(void);
int free_workers(int count);
int end_shortage(void);

#endif
