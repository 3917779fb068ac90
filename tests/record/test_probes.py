"""The offsets of members in types that are made by hand after Documentation/bpf/btf.rst."""

import struct

import pytest

from wqr import btf, probes

INT, STRUCT, ENUM = 1, 4, 6
MEMBERS = {
    "work_struct": {"data": 0, "entry": 8, "func": 24},
    "workqueue_struct": {"pwqs": 0, "rescuer": 136, "saved_max_active": 148, "name": 176, "flags": 256},
    "worker": {"entry": 0, "current_work": 16, "current_func": 24},
    "task_struct": {"thread_info": 0, "worker_private": 2648},
    "kthread": {"flags": 0, "data": 24},
}


class Types:
    """BTF, type by type."""

    def __init__(self) -> None:
        self.strings, self.types = b"\0", b""

    def name(self, text: str) -> int:
        self.strings += text.encode() + b"\0"
        return len(self.strings) - len(text) - 1

    def add(self, kind: int, name: str, behind: bytes, count: int = 0, has_bits: int = 0) -> None:
        self.types += struct.pack("<III", self.name(name), has_bits << 31 | kind << 24 | count, 8) + behind

    def struct(self, name: str, members: dict[str, int], has_bits: int = 0) -> None:
        rows = b"".join(struct.pack("<III", self.name(member), 1, offset * 8) for member, offset in members.items())
        self.add(STRUCT, name, rows, len(members), has_bits)

    def data(self) -> bytes:
        head = struct.pack("<HBBIIIII", 0xEB9F, 1, 0, 24, 0, len(self.types), len(self.types), len(self.strings))
        return head + self.types + self.strings


def types_of(members: dict[str, dict[str, int]]) -> bytes:
    types = Types()
    types.add(INT, "int", struct.pack("<I", 32))
    types.add(ENUM, "state", struct.pack("<II", types.name("ASLEEP"), 1), 1)
    for name, rows in members.items():
        types.struct(name, rows)
    return types.data()


def test_members_are_found_behind_other_types():
    assert btf.structs(types_of(MEMBERS), {"kthread"}) == {"kthread": {"flags": 0, "data": 24}}


def test_offsets_with_bit_fields_are_read():
    types = Types()
    types.struct("worker", {"current_func": 24}, has_bits=1)
    assert btf.structs(types.data(), {"worker"}) == {"worker": {"current_func": 24}}


def test_the_probe_of_a_sleep_goes_from_the_thread_to_its_item():
    # task_struct.worker_private is a kthread, whose data is the worker (kernel/kthread.c, kthread_data)
    wanted = "p sleep wq_worker_sleeping func=+24(+24(+2648(%di))):x64 work=+16(+24(+2648(%di))):x64"
    assert probes.lines(types_of(MEMBERS))[0] == wanted


def test_a_workqueue_of_6_12_has_max_active():
    newer = MEMBERS | {
        "workqueue_struct": {"rescuer": 136, "max_active": 148, "name": 192, "flags": 256, "saved_max_active": 300}
    }
    queue = next(line for line in probes.lines(types_of(newer)) if line.startswith("p queue"))
    assert "max=+148(%si):s32" in queue and "name=+192(%si):string" in queue


def test_completions_are_probed_by_their_addresses():
    assert "p complete complete c=%di:x64" in probes.lines(types_of(MEMBERS))


def test_types_that_lack_a_member_are_told():
    with pytest.raises(probes.UnknownKernel, match="current_func"):
        probes.lines(types_of(MEMBERS | {"worker": {"entry": 0}}))


def test_what_is_no_btf_is_told():
    with pytest.raises(btf.NoTypes):
        probes.lines(b"nothing")
