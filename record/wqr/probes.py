"""The kprobe events of a kernel: where it queues, sleeps and flushes, and what is fetched there. x86-64 alone: the
registers are those of its calling convention.

Each is a line `p NAME FUNCTION WHAT..`, which wqrecord hands to tracefs if the kernel has the function.
"""

from . import btf

STRUCTS = {"workqueue_struct", "work_struct", "worker", "task_struct", "kthread"}
COMPLETIONS = (
    "wait_for_completion",
    "wait_for_completion_timeout",
    "wait_for_completion_io",
    "wait_for_completion_io_timeout",
    "wait_for_completion_interruptible",
    "wait_for_completion_interruptible_timeout",
    "wait_for_completion_killable",
    "wait_for_completion_killable_timeout",
    "wait_for_completion_state",
)
COMPLETERS = ("complete", "complete_all", "complete_on_current_cpu")


class UnknownKernel(Exception):
    """The kernel's types lack what the probes need."""


def lines(types: bytes) -> list[str]:
    """Those of completions come last: they are for --full alone."""
    offsets = btf.structs(types, STRUCTS)
    try:
        return [*usual(offsets), *completions()]
    except KeyError as missing:
        raise UnknownKernel(f"the types of this kernel have no {missing.args[0]}") from missing


def usual(offsets: dict[str, dict[str, int]]) -> list[str]:
    function = offsets["work_struct"]["func"]
    worker = f"+{offsets['kthread']['data']}(+{offsets['task_struct']['worker_private']}(%di))"
    item = offsets["worker"]
    return [
        # Each worker that goes to sleep comes here (kernel/sched/core.c, sched_submit_work); one that runs no item has
        # no function.
        f"p sleep wq_worker_sleeping func=+{item['current_func']}({worker}):x64 "
        f"work=+{item['current_work']}({worker}):x64",
        f"p queue __queue_work {workqueue('si', offsets)} work=%dx:x64 func=+{function}(%dx):x64",
        "p delayed __queue_delayed_work wq=%si:x64 work=%dx:x64",
        f"p flush_work __flush_work work=%di:x64 func=+{function}(%di):x64 cancel=%si:u8",
        f"p flush_wq __flush_workqueue {workqueue('di', offsets)}",
        f"p drain_wq drain_workqueue {workqueue('di', offsets)}",
    ]


def workqueue(register: str, offsets: dict[str, dict[str, int]]) -> str:
    """What is fetched of a workqueue. In 6.12 max_active is what is in force, and 6.1's saved_max_active what was asked
    for."""
    members = offsets["workqueue_struct"]
    limit = members["max_active"] if "max_active" in members else members["saved_max_active"]
    return (
        f"wq=%{register}:x64 flags=+{members['flags']}(%{register}):u32 rescuer=+{members['rescuer']}(%{register}):x64 "
        f"max=+{limit}(%{register}):s32 name=+{members['name']}(%{register}):string"
    )


def completions() -> list[str]:
    waits = [f"p wfc{number} {function} c=%di:x64" for number, function in enumerate(COMPLETIONS)]
    return waits + [f"p {function} {function} c=%di:x64" for function in COMPLETERS]
