// SPDX-License-Identifier: GPL-2.0
/*
 * wqjudge executes the work items of declarations of wqplan, on the workqueues of assignments of them, and prints
 * what becomes of each item: so a kernel says whether they hang.
 *
 * Each write to /proc/wqjudge is a command, and it returns when the command is done. What comes of it is printed to
 * the console, in lines that begin with "wqjudge:" and their number. Items, workqueues and cases are numbered from 0.
 * Whoever reads the file gets `hung` or `done`: how the current case stood when its state was printed last.
 *
 * First all cases are made, since a rescuer can't be created later:
 *
 *   case N free|driven		the next case. The commands up to the next one describe it
 *   wq KIND RESCUER [MAX]	its next workqueue. KIND p: per CPU, u: WQ_UNBOUND, o: alloc_ordered_workqueue(), h and
 *				g: as p and u, with WQ_HIGHPRI. RESCUER 1: with WQ_MEM_RECLAIM, 0: without. MAX is
 *				max_active
 *   item Q			its next item, which is queued to its workqueue Q alone
 *   does I DEED ARG		what item I does by itself, in a case that is free: see `deeds` below
 *   blockers			makes the items that will keep workers busy
 *
 * Then comes the weather. Before `short` and `free` the guest has to lower kernel.threads-max; after `plenty` it has
 * to lift it again:
 *
 *   short			all workers sleep, and it is looked whether that is so
 *   free N			the same, but N workers of each pool can execute work
 *   plenty			all workers are free
 *
 * Then each case is carried out:
 *
 *   at N			case N is the one that is meant below. This is printed
 *   queueall I[@CPU]..		queues these items. None does anything before the last one is queued
 *   cancelnow I		cancel_work(), by this process
 *   queue I, cancel I, start I, wait I T, waitwq I T, over I, finish I
 *				steps of a driven case, as docs/FORMAT.md has them. Each is waited for
 *   await I T			the same, of a wait for a completion: it is over once item T has done its work
 *   drain I T, cancelsync I T	item I, which is driven and runs, calls drain_workqueue() or cancel_work_sync()
 *   settle			waits until all is done, or nothing has happened in 75 looks, 20 ms apart
 *   sleep MS
 *   state WORD			settles, and prints where the items are
 *   end			opens all gates, settles, prints where the items are, and all that happened
 *   busy			prints what the kernel said when the guest asked for its busy workqueues
 *   listed			prints that the guest has printed what it has to say of a case that hangs
 *   bye			prints that all commands before it are done
 */
#define pr_fmt(fmt) "wqjudge: " fmt
#include <linux/ctype.h>
#include <linux/delay.h>
#include <linux/module.h>
#include <linux/proc_fs.h>
#include <linux/slab.h>
#include <linux/uaccess.h>
#include "wqjudge.h"

int looks = 75;
module_param(looks, int, 0444);
MODULE_PARM_DESC(looks, "what hasn't happened after so many looks, 20 ms apart, doesn't happen");

#define MAX_CASES	4096
#define MAX_LINE	4096

static struct judged_case *cases[MAX_CASES];
static struct judged_case *current_case;
static bool hangs;	/* the current case, when its state was printed last */

int next_line(void)
{
	static atomic_t lines = ATOMIC_INIT(0);

	return atomic_inc_return(&lines);
}

static const char * const deeds[] = {
	[FLUSH] = "flush", [FLUSHWQ] = "flushwq", [DRAINWQ] = "drain", [CANCEL_SYNC] = "cancelsync", [POLL] = "poll",
	[AWAIT] = "await", [QUEUE] = "queue", [NAP] = "nap",
};

static int deed_of(const char *word)
{
	int deed;

	for (deed = 1; deed < ARRAY_SIZE(deeds); deed++)
		if (!strcmp(word, deeds[deed]))
			return deed;
	return NOTHING;
}

static int do_case(int number, const char *how)
{
	bool driven = !strcmp(how, "driven");

	if (number < 0 || number >= MAX_CASES || cases[number] || (!driven && strcmp(how, "free")))
		return -EINVAL;
	current_case = cases[number] = make_case(number, driven);
	return current_case ? 0 : -ENOMEM;
}

static int do_does(int number, const char *word, int arg)
{
	enum deed deed = deed_of(word);

	if (!current_case || number < 0 || number >= current_case->nitems || deed == NOTHING || arg < 0)
		return -EINVAL;
	if (deed != NAP && arg >= MAX_ITEMS)
		return -EINVAL;
	return add_act(current_case->items[number], deed, arg);
}

static int do_at(int number)
{
	if (number < 0 || number >= MAX_CASES || !cases[number])
		return -EINVAL;
	current_case = cases[number];
	hangs = false;
	say("at %d\n", number);
	return 0;
}

/* The items and their CPUs are `0 2@1 1`. */
static int do_queueall(char *words)
{
	int number, cpu, err = 0;
	char *word;

	while (!err && (word = strsep(&words, " "))) {
		cpu = WORK_CPU_UNBOUND;
		if (!*word)
			continue;
		if (sscanf(word, "%d@%d", &number, &cpu) < 1 || number < 0 || number >= current_case->nitems)
			err = -EINVAL;
		else
			queue_item(current_case->items[number], cpu);
	}
	begin_acts(current_case);
	return err;
}

/* A command on the current case. */
static int do_in_case(const char *command, char *rest)
{
	char word[32] = "";
	int a = -1, b = -1, max = 0;
	char kind;

	if (!strcmp(command, "queueall"))
		return do_queueall(rest);
	if (!strcmp(command, "wq")) {
		if (sscanf(rest, "%c %d %d", &kind, &a, &max) < 2)
			return -EINVAL;
		return add_queue(current_case, kind, a, max);
	}
	if (!strcmp(command, "state")) {
		if (sscanf(rest, "%31s", word) != 1)
			return -EINVAL;
		hangs = !print_state(current_case, word);
		return 0;
	}
	if (!strcmp(command, "end")) {
		hangs = !end_case(current_case);
		return 0;
	}
	if (!strcmp(command, "settle")) {
		print_state(current_case, NULL);
		return 0;
	}
	if (sscanf(rest, "%d %d", &a, &b) < 1)
		return -EINVAL;
	if (!strcmp(command, "item"))
		return add_item(current_case, a);
	if (a < 0 || a >= current_case->nitems || b >= current_case->nitems)
		return -EINVAL;
	if (!strcmp(command, "cancelnow")) {
		cancel_item(current_case->items[a]);
		return 0;
	}
	return drive(current_case, command, a, b);
}

static int do_line(char *line)
{
	char command[32] = "", word[32] = "";
	int a = -1, b = -1, at = 0;

	if (sscanf(line, "%31s %n", command, &at) < 1)
		return -EINVAL;
	at = at ?: strlen(line);
	if (!strcmp(command, "case"))
		return sscanf(line + at, "%d %31s", &a, word) == 2 ? do_case(a, word) : -EINVAL;
	if (!strcmp(command, "does"))
		return sscanf(line + at, "%d %31s %d", &a, word, &b) == 3 ? do_does(a, word, b) : -EINVAL;
	if (!strcmp(command, "at"))
		return kstrtoint(line + at, 10, &a) ?: do_at(a);
	if (!strcmp(command, "sleep")) {
		if (kstrtoint(line + at, 10, &a))
			return -EINVAL;
		msleep(a);
		return 0;
	}
	if (!strcmp(command, "blockers"))
		return make_blockers();
	if (!strcmp(command, "short"))
		return begin_shortage();
	if (!strcmp(command, "free"))
		return kstrtoint(line + at, 10, &a) ?: free_workers(a);
	if (!strcmp(command, "plenty"))
		return end_shortage();
	if (!strcmp(command, "busy"))
		return print_busy();
	if (!strcmp(command, "bye") || !strcmp(command, "listed")) {
		say("%s\n", command);
		return 0;
	}
	return current_case ? do_in_case(command, line + at) : -EINVAL;
}

static ssize_t wqjudge_write(struct file *file, const char __user *from, size_t len, loff_t *pos)
{
	char *text, *line;
	int err = -ENOMEM;

	if (len >= MAX_LINE)
		return -E2BIG;
	text = memdup_user_nul(from, len);
	if (IS_ERR(text))
		return PTR_ERR(text);
	strim(text);
	line = kstrdup(text, GFP_KERNEL);	/* which do_line() takes apart */
	if (line)
		err = do_line(line);
	if (err)
		say("error %d in: %s\n", err, text);
	kfree(line);
	kfree(text);
	return err ?: len;
}

/* Whether the current case hung when its state was printed last. */
static ssize_t wqjudge_read(struct file *file, char __user *to, size_t len, loff_t *pos)
{
	const char *text = hangs ? "hung\n" : "done\n";

	return simple_read_from_buffer(to, len, pos, text, strlen(text));
}

static const struct proc_ops wqjudge_ops = { .proc_read = wqjudge_read, .proc_write = wqjudge_write };

static int __init wqjudge_init(void)
{
	if (!proc_create("wqjudge", 0600, NULL, &wqjudge_ops))
		return -ENOMEM;
	say("ready\n");
	return 0;
}
module_init(wqjudge_init);
MODULE_LICENSE("GPL");
MODULE_DESCRIPTION("executes declared work items while no worker can be created");
