"""The ring buffer's pages, made by hand after include/linux/ring_buffer.h and include/linux/trace_events.h."""

import struct

from wqr.events import Stream, formats_of

FORMATS = """name: waking
ID: 7
format:
	field:unsigned short common_type;	offset:0;	size:2;	signed:0;
	field:unsigned char common_flags;	offset:2;	size:1;	signed:0;
	field:unsigned char common_preempt_count;	offset:3;	size:1;	signed:0;
	field:int common_pid;	offset:4;	size:4;	signed:1;

	field:char comm[16];	offset:8;	size:16;	signed:1;
	field:pid_t pid;	offset:24;	size:4;	signed:1;

print fmt: "comm=%s", REC->comm
name: queue
ID: 8
format:
	field:unsigned short common_type;	offset:0;	size:2;	signed:0;
	field:int common_pid;	offset:4;	size:4;	signed:1;

	field:unsigned long __probe_ip;	offset:8;	size:8;	signed:0;
	field:u64 wq;	offset:16;	size:8;	signed:0;
	field:__data_loc char[] name;	offset:24;	size:4;	signed:1;

name: kernel_stack
ID: 4
format:
	field:int common_pid;	offset:4;	size:4;	signed:1;

	field:int size;	offset:8;	size:4;	signed:1;
	field:unsigned long caller[8];	offset:16;	size:64;	signed:0;
"""
STACK, WAKING, QUEUE = 4, 7, 8


def head(number: int, pid: int, flags: int = 0) -> bytes:
    return struct.pack("<HBBi", number, flags, 0, pid)


def waking(pid: int, comm: bytes, woken: int, flags: int = 0) -> bytes:
    return head(WAKING, pid, flags) + comm.ljust(16, b"\0") + struct.pack("<i", woken)


def queue(pid: int, wq: int, name: bytes) -> bytes:
    text = name + b"\0"
    body = head(QUEUE, pid) + struct.pack("<QQI", 0, wq, len(text) << 16 | 28) + text
    return body + b"\0" * (-len(body) % 4)


def stack(pid: int, *addresses: int, flags: int = 0) -> bytes:
    return (
        head(STACK, pid, flags) + struct.pack("<iI", len(addresses), 0) + struct.pack(f"<{len(addresses)}Q", *addresses)
    )


def entry(delta: int, body: bytes) -> bytes:
    """An entry of up to 112 bytes: its length in words is the kind."""
    return struct.pack("<I", delta << 5 | len(body) // 4) + body


def long_entry(delta: int, body: bytes) -> bytes:
    return struct.pack("<II", delta << 5, len(body) + 4) + body


def extend(delta: int) -> bytes:
    return struct.pack("<II", (delta & (1 << 27) - 1) << 5 | 30, delta >> 27)


def stamp(time: int) -> bytes:
    return struct.pack("<II", (time & (1 << 27) - 1) << 5 | 31, time >> 27)


def discarded(delta: int, size: int) -> bytes:
    return struct.pack("<II", delta << 5 | 29, size - 4) + b"\xff" * (size - 8)


def page(time: int, *entries: bytes, missed: int = 0) -> bytes:
    data = b"".join(entries)
    return (struct.pack("<QQ", time, len(data) | missed) + data).ljust(4096, b"\0")


def read(*pages: bytes) -> Stream:
    return Stream(0, b"".join(pages), formats_of(FORMATS))


def test_fields_are_read():
    (event,) = read(page(100, entry(5, waking(3, b"kworker/0:1", 17)))).events()
    assert (event.time, event.name, event.pid, event.in_interrupt) == (105, "waking", 3, False)
    assert event.values == {"comm": "kworker/0:1", "pid": 17}


def test_a_text_behind_the_fields_is_read():
    (event,) = read(page(0, entry(0, queue(3, 1 << 63, b"xfs-conv/vda")))).events()
    assert event.values == {"wq": 1 << 63, "name": "xfs-conv/vda"}


def test_times_add_up_and_are_extended():
    entries = (
        entry(1, waking(3, b"a", 1)),
        extend(1 << 40),
        entry(2, waking(3, b"b", 2)),
        stamp(7 << 30),
        entry(3, waking(3, b"c", 3)),
    )
    assert [event.time for event in read(page(1000, *entries)).events()] == [1001, 1001 + (1 << 40) + 2, (7 << 30) + 3]


def test_a_long_entry_and_one_that_was_discarded():
    entries = discarded(9, 40), long_entry(1, stack(3, *range(1, 30))), long_entry(1, waking(3, b"a", 1))
    (event,) = read(page(0, *entries)).events()
    assert event.values["pid"] == 1


def test_a_stack_is_that_of_the_event_before_in_the_same_context():
    interrupt = 0x08
    entries = [
        entry(0, waking(3, b"a", 1)),
        entry(1, waking(3, b"b", 2, interrupt)),
        entry(1, stack(3, 0x20, 0x21, flags=interrupt)),
        entry(1, stack(3, 0x10, 0x11)),
    ]
    first, second = read(page(0, *entries)).events()
    assert (first.stack, first.in_interrupt) == ((0x10, 0x11), False)
    assert (second.stack, second.in_interrupt) == ((0x20, 0x21), True)


def test_the_end_of_a_stack_is_not_a_function():
    (event,) = read(page(0, entry(0, waking(3, b"a", 1)), entry(1, stack(3, 0x10, (1 << 64) - 1)))).events()
    assert event.stack == (0x10,)


def test_lost_events_are_noticed_at_the_page_before_which_they_were():
    stream = read(page(50, entry(0, waking(3, b"a", 1))), page(90, entry(0, waking(3, b"b", 2)), missed=1 << 31))
    assert len(stream.events()) == 2
    assert stream.gaps == [90]


def test_events_of_unknown_formats_are_skipped():
    assert read(page(0, entry(0, head(99, 3)))).events() == []
