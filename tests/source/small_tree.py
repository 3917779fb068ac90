"""A made-up kernel's tree: each module is one situation. What a scan has to say of them is written down by hand."""

HEAD = """#include <linux/workqueue.h>

struct {name} {{
	struct workqueue_struct *wq;
	struct work_struct a_work, b_work, c_work;
	struct kref ref;
	const struct {name}_ops *ops;
	struct {name} *peer;
}};
"""

TAIL = """
int {name}_init(struct {name} *x)
{{
	x->wq = alloc_workqueue("{name}", {flags}, 0);
	INIT_WORK(&x->a_work, {name}_a);
	INIT_WORK(&x->b_work, {name}_b);
	queue_work(x->wq, &x->a_work);
	queue_work(x->wq, &x->b_work);
	return 0;
}}
"""

WORK = """
static void {name}_{letter}(struct work_struct *work)
{{
	struct {name} *x = container_of(work, struct {name}, {letter}_work);

	{body}
}}
"""


def work(name, letter, body):
    return WORK.format(name=name, letter=letter, body=body)


def module(name, a, b="x->wq = x->wq;", before="", flags="WQ_MEM_RECLAIM"):
    """A file with two items on one workqueue."""
    return (
        HEAD.format(name=name) + before + work(name, "b", b) + work(name, "a", a) + TAIL.format(name=name, flags=flags)
    )


DOWN = """
static void NAME_down(struct NAME *x, int on_wq)
{
	if (!on_wq)
		flush_workqueue(x->wq);
}
"""
OPS = """
struct ptr_ops {
	void (*stop)(struct ptr *x);
};

static void ptr_stop(struct ptr *x)
{
	flush_work(&x->b_work);
}

static const struct ptr_ops ptr_ops = { .stop = ptr_stop };
"""
# A workqueue without a rescuer, and an item on it that another one waits for.
BARE = """
static struct workqueue_struct *bare_slow;

static void bare_c(struct work_struct *work)
{
}

void bare_queue(struct bare *x)
{
	bare_slow = alloc_workqueue("slow", 0, 0);
	INIT_WORK(&x->c_work, bare_c);
	queue_work(bare_slow, &x->c_work);
}
"""
# Who cancels b waits while that runs, and so for c.
THROUGH = """
static void through_c(struct work_struct *work)
{
}

void through_queue(struct through *x)
{
	INIT_WORK(&x->c_work, through_c);
	queue_work(x->wq, &x->c_work);
}
"""

# The last reference ends a workqueue without a rescuer.
LAST = (
    BARE.replace("bare", "last")
    + """
static void last_free(struct kref *ref)
{
	destroy_workqueue(last_slow);
}
"""
)

# A workqueue that is made is ended again, if something fails.
UNDO = BARE.replace("bare", "undo").replace(
    "\tqueue_work(undo_slow, &x->c_work);\n", "\tqueue_work(undo_slow, &x->c_work);\n\tdestroy_workqueue(undo_slow);\n"
)

# Whoever drops the last reference waits for b: a function that took it itself, and one that didn't.
REFERENCE = """
static void NAME_free(struct kref *ref)
{
	struct NAME *x = container_of(ref, struct NAME, ref);

	flush_work(&x->b_work);
}

static struct NAME *NAME_find_get(int index)
{
	return NAME_table[index];
}

static void NAME_put(struct NAME *x)
{
	kref_put(&x->ref, NAME_free);
}

static void NAME_each(void)
{
	struct NAME *x;
	int i;

	for (i = 0; i < 8; i++) {
		x = NAME_find_get(i);
		NAME_put(x);
	}
}
"""

# An object that flushes the workqueue when it is destroyed; it is destroyed where it was made, or by others.
OBJECT = """
static struct NAME *NAME_create(struct workqueue_struct *wq)
{
	struct NAME *y = kzalloc(sizeof(*y), GFP_KERNEL);

	y->wq = wq;
	return y;
}

static void NAME_destroy(struct NAME *y)
{
	flush_workqueue(y->wq);
	kfree(y);
}

static void NAME_ask(struct NAME *x, struct NAME *old)
{
	struct NAME *y = BEFORE;

	y = NAME_create(x->wq);
	if (y->wq == NULL)
		NAME_destroy(y);
}
"""

# An item that waits for one of its own work function: itself, as whoever drops the last reference would; that of a peer;
# each one that there is, and each other one.
SELF = """
static void self_free(struct kref *ref)
{
	struct self *y = container_of(ref, struct self, ref);

	flush_work(&y->a_work);
}

static void self_put(struct self *y)
{
	kref_put(&y->ref, self_free);
}
"""
PEER = """
static void peer_wait(struct peer *y)
{
	flush_work(&y->peer->a_work);
}
"""
EACH = """
static void NAME_wait(struct NAME *x)
{
	struct NAME *y;

	list_for_each_entry(y, &NAME_list, entry) {
		CHECK
		flush_work(&y->a_work);
	}
}
"""
CHECK = "if (y == x)\n\t\t\tcontinue;"

# A module, a library that it stands on, and what that one stands on; another user of the library.
LIBRARY_H = """
struct checks {
	int (*check)(int block);
};

int library_get(int block);
"""
THIN = """#include "library/library.h"

int thin_read(int block)
{
	return library_get(block);
}
EXPORT_SYMBOL_GPL(thin_read);
"""
LIBRARY = """#include "library.h"

int library_get(int block)
{
	return buffer_get(block);
}
EXPORT_SYMBOL_GPL(library_get);
"""
BUFFER = """
static void shrink(struct work_struct *work)
{
}

int buffer_get(int block)
{
	static struct work_struct shrink_work;

	INIT_WORK(&shrink_work, shrink);
	return block;
}
EXPORT_SYMBOL_GPL(buffer_get);
"""
OTHER_USER = """#include "library/library.h"

static int other_check(int block)
{
	return library_get(block);
}

static struct checks other_checks = { .check = other_check };
"""

CORE_H = """
struct ctrl;

struct ctrl_ops {
	void (*free)(struct ctrl *ctrl);
};

struct ctrl {
	const struct ctrl_ops *ops;
	struct work_struct tcp_work, rdma_work, rdma_reset_work;
};

extern struct workqueue_struct *ctrl_wq;
void ctrl_put(struct ctrl *ctrl);
"""
CORE = """#include "core.h"

struct workqueue_struct *ctrl_wq;
EXPORT_SYMBOL_GPL(ctrl_wq);

void ctrl_put(struct ctrl *ctrl)
{
	ctrl->ops->free(ctrl);
}
EXPORT_SYMBOL_GPL(ctrl_put);

int ctrl_init(void)
{
	ctrl_wq = alloc_workqueue("ctrl-wq", WQ_MEM_RECLAIM, 0);
	return 0;
}
"""
TCP = """#include "core.h"

static void tcp_work(struct work_struct *work)
{
	struct ctrl *ctrl = container_of(work, struct ctrl, tcp_work);

	ctrl_put(ctrl);
}

static void tcp_free(struct ctrl *ctrl)
{
}

static const struct ctrl_ops tcp_ops = { .free = tcp_free };

void tcp_init(struct ctrl *ctrl)
{
	ctrl->ops = &tcp_ops;
	INIT_WORK(&ctrl->tcp_work, tcp_work);
	queue_work(ctrl_wq, &ctrl->tcp_work);
}
"""
RDMA = """#include "core.h"

static void rdma_reset(struct work_struct *work)
{
}

static void rdma_work(struct work_struct *work)
{
	struct ctrl *ctrl = container_of(work, struct ctrl, rdma_work);

	ctrl_put(ctrl);
}

static void rdma_free(struct ctrl *ctrl)
{
	flush_work(&ctrl->rdma_reset_work);
}

static const struct ctrl_ops rdma_ops = { .free = rdma_free };

void rdma_init(struct ctrl *ctrl)
{
	ctrl->ops = &rdma_ops;
	INIT_WORK(&ctrl->rdma_work, rdma_work);
	INIT_WORK(&ctrl->rdma_reset_work, rdma_reset);
	queue_work(ctrl_wq, &ctrl->rdma_work);
	queue_work(ctrl_wq, &ctrl->rdma_reset_work);
}
"""

FILES = {
    "Makefile": "VERSION = 6\nPATCHLEVEL = 1\nSUBLEVEL = 0\n",
    "include/linux/workqueue.h": "struct work_struct { int data; };\n",
    "drivers/block/Makefile": "obj-m += own.o arg.o zero.o ptr.o bare.o cancel.o through.o plain.o ends.o last.o\n"
    "obj-m += undo.o took.o gave.o made.o older.o self.o peer.o every.o other.o\n",
    # flushes its own workqueue
    "drivers/block/own.c": module("own", "flush_workqueue(x->wq);"),
    # a constant among the arguments excludes the flush, or doesn't
    "drivers/block/arg.c": module("arg", "arg_down(x, 1);", before=DOWN.replace("NAME", "arg")),
    "drivers/block/zero.c": module("zero", "zero_down(x, 0);", before=DOWN.replace("NAME", "zero")),
    # by a pointer
    "drivers/block/ptr.c": module("ptr", "x->ops->stop(x);", before=OPS),
    "drivers/block/bare.c": module("bare", "flush_work(&x->c_work);", before=BARE),
    # what is cancelled waits for nothing; and for another one
    "drivers/block/cancel.c": module("cancel", "cancel_work_sync(&x->b_work);"),
    "drivers/block/through.c": module(
        "through", "cancel_work_sync(&x->b_work);", "flush_work(&x->c_work);", before=THROUGH
    ),
    # ends its own workqueue; ends another one with the last reference, or as soon as it is made
    "drivers/block/ends.c": module("ends", "destroy_workqueue(x->wq);"),
    "drivers/block/last.c": module("last", "kref_put(&x->ref, last_free);", before=LAST),
    "drivers/block/undo.c": module("undo", "undo_queue(x);", before=UNDO),
    # drops a reference that it took; and that of a list, too
    "drivers/block/took.c": module("took", "took_each();", before=REFERENCE.replace("NAME", "took")),
    "drivers/block/gave.c": module("gave", "gave_each();\n\tgave_put(x);", before=REFERENCE.replace("NAME", "gave")),
    # undoes what it has just made; and what may be older
    "drivers/block/made.c": module(
        "made", "made_ask(x, x);", before=OBJECT.replace("NAME", "made").replace("BEFORE", "NULL")
    ),
    "drivers/block/older.c": module(
        "older", "older_ask(x, x);", before=OBJECT.replace("NAME", "older").replace("BEFORE", "old")
    ),
    # waits for itself, for its peer, for each of its kind, for each other one
    "drivers/block/self.c": module("self", "self_put(x);", before=SELF),
    "drivers/block/peer.c": module("peer", "peer_wait(x);", before=PEER),
    "drivers/block/every.c": module(
        "every", "every_wait(x);", before=EACH.replace("NAME", "every").replace("CHECK", "")
    ),
    "drivers/block/other.c": module(
        "other", "other_wait(x);", before=EACH.replace("NAME", "other").replace("CHECK", CHECK)
    ),
    # no rescuer: no module of a scan
    "drivers/block/plain.c": module("plain", "flush_workqueue(x->wq);", flags="0"),
    "drivers/md/Makefile": "obj-m += thin.o buffer.o other.o library/\n",
    "drivers/md/thin.c": THIN,
    "drivers/md/buffer.c": BUFFER,
    "drivers/md/other.c": OTHER_USER,
    "drivers/md/library/Makefile": "obj-m += library.o\n",
    "drivers/md/library/library.h": LIBRARY_H,
    "drivers/md/library/library.c": LIBRARY,
    "drivers/nvme/Makefile": "obj-m += core.o tcp.o rdma.o\ncore-y := main.o \\\n\t$(addprefix lib/, more.o)\n",
    "drivers/nvme/core.h": CORE_H,
    "drivers/nvme/main.c": CORE,
    "drivers/nvme/lib/more.c": "void more(void)\n{\n}\n",
    "drivers/nvme/tcp.c": TCP,
    "drivers/nvme/rdma.c": RDMA,
}

# (module, item, target, how it hangs) of the sure lines, and of the unsure ones with why they aren't sure
SURE = {
    ("drivers/block/own", "own_a", "*", "hangs"),
    ("drivers/block/zero", "zero_a", "*", "hangs"),
    ("drivers/block/bare", "bare_a", "bare_c", "no rescuer"),
    ("drivers/block/gave", "gave_a", "gave_b", "hangs"),
    ("drivers/block/older", "older_a", "*", "hangs"),
    ("drivers/block/peer", "peer_a", "peer_a", "hangs"),
    ("drivers/block/other", "other_a", "other_a", "hangs"),
    ("drivers/block/through", "through_a", "through_c", "hangs"),
    ("drivers/block/through", "through_b", "through_c", "hangs"),
}
UNSURE = {
    ("drivers/block/arg", "arg_a", "*", ("the arguments exclude it",)),
    ("drivers/block/ptr", "ptr_a", "ptr_b", ("a call by a pointer",)),
    ("drivers/block/ends", "ends_a", "*", ("it would end its own workqueue",)),
    ("drivers/block/undo", "undo_a", "*", ("it was made in the same function",)),
    ("drivers/block/last", "last_a", "*", ("the last reference is dropped on the way",)),
    ("drivers/block/made", "made_a", "*", ("what is undone was made there",)),
    ("drivers/block/self", "self_a", "self_a", ("it would wait for itself",)),
    ("drivers/block/every", "every_a", "every_a", ("it would wait for itself",)),
    ("drivers/block/took", "took_a", "took_b", ("a reference is dropped that was taken there",)),
    ("drivers/nvme/core", "rdma_work", "rdma_reset", ("a call by a pointer",)),
}


def make(folder):
    """Writes it."""
    for name, text in FILES.items():
        (folder / name).parent.mkdir(parents=True, exist_ok=True)
        (folder / name).write_text(text)
    return folder
