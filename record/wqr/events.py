"""Reads what trace_pipe_raw gave, pages of the kernel's ring buffer, by the formats of its events. No other program is
needed. (Documentation/trace/ring-buffer-design.rst; include/linux/ring_buffer.h)
"""

import re
import struct
from dataclasses import dataclass, field
from typing import Iterator, Optional, Union

PAGE = 4096
# Of the flags of an event: in a hard interrupt, in a softirq, in an NMI.
INTERRUPT = 0x08 | 0x10 | 0x40
MISSED = 1 << 31  # in the head of a page: events were lost before it
FIELD = re.compile(r"field:(.*?)(\w+)(\[[^\]]*\])?;\s*offset:(\d+);\s*size:(\d+);\s*signed:(\d);")
PADDING, TIME_EXTEND, TIME_STAMP = 29, 30, 31
STACK = "kernel_stack"

Value = Union[int, str]


@dataclass(frozen=True)
class Field:
    name: str
    kind: str  # "number", "text" or "elsewhere": text whose place is here
    offset: int
    size: int
    is_signed: bool

    def of(self, data: bytes) -> Value:
        if self.kind == "number":
            return int.from_bytes(data[self.offset : self.offset + self.size], "little", signed=self.is_signed)
        if self.kind == "text":
            return text_of(data[self.offset : self.offset + self.size])
        where = int.from_bytes(data[self.offset : self.offset + 4], "little")
        return text_of(data[where & 0xFFFF : (where & 0xFFFF) + (where >> 16)])


def text_of(data: bytes) -> str:
    return data.split(b"\0")[0].decode("latin-1")


@dataclass(frozen=True)
class Format:
    """An event's format file of tracefs."""

    name: str
    number: int
    fields: tuple[Field, ...]

    @staticmethod
    def of(text: str) -> "Format":
        fields = []
        for kind, name, array, offset, size, is_signed in FIELD.findall(text):
            if name.startswith(("common_", "__probe_")):
                continue
            form = "elsewhere" if "__data_loc" in kind else "text" if kind.strip() == "char" and array else "number"
            fields.append(Field(name, form, int(offset), int(size), is_signed == "1"))
        name, number = re.search(r"^name: (\S+)", text, re.M)[1], re.search(r"^ID: (\d+)", text, re.M)[1]
        return Format(name, int(number), tuple(fields))

    def values(self, data: bytes) -> dict[str, Value]:
        return {each.name: each.of(data) for each in self.fields}


def formats_of(text: str) -> dict[int, Format]:
    parts = re.split(r"(?m)^(?=name: )", text)
    return {form.number: form for form in map(Format.of, filter(str.strip, parts))}


@dataclass(slots=True)
class Event:
    """What happened on a CPU, in which thread, and where, if the stack was recorded."""

    time: int
    cpu: int
    name: str
    pid: int
    in_interrupt: bool
    values: dict[str, Value]
    stack: tuple[int, ...] = ()


@dataclass
class Stream:
    """The pages of one CPU."""

    cpu: int
    pages: bytes
    formats: dict[int, Format]
    gaps: list[int] = field(default_factory=list)  # times before which events were lost

    def entries(self) -> Iterator[tuple[int, bytes]]:
        """Each entry of the buffer with its time."""
        for page in range(0, len(self.pages) - 15, PAGE):
            time, commit = struct.unpack_from("<QQ", self.pages, page)
            if commit & MISSED:
                self.gaps.append(time)
            yield from self.entries_of(page + 16, page + 16 + (commit & 0xFFFFF), time)

    def entries_of(self, at: int, end: int, time: int) -> Iterator[tuple[int, bytes]]:
        """The entries of a page."""
        pages = self.pages
        while at + 4 <= end:
            head = int.from_bytes(pages[at : at + 4], "little")
            kind, delta = head & 31, head >> 5
            if kind < PADDING:
                time += delta
                start, size = (
                    (at + 4, 4 * kind) if kind else (at + 8, int.from_bytes(pages[at + 4 : at + 8], "little") - 4)
                )
                yield time, pages[start : start + size]
                at = start + size
                continue
            word = int.from_bytes(pages[at + 4 : at + 8], "little")
            if kind == PADDING:
                if delta == 0:
                    return
                at += 4 + word
            elif kind == TIME_EXTEND:
                time += delta + (word << 27)
                at += 8
            else:
                # (the five highest bits of a stamp aren't in it)
                time = delta + (word << 27) | time & (31 << 59)
                at += 8

    def events(self) -> list[Event]:
        """The events in order. A stack is an entry behind that of its event, in the same context, maybe not at once."""
        found: list[Event] = []
        stacks: dict[tuple[int, ...], tuple[int, ...]] = {}  # each is kept once
        last: dict[tuple[int, int], Event] = {}
        for time, body in self.entries():
            number, flags, _, pid = struct.unpack_from("<HBBi", body)
            form = self.formats.get(number)
            if form is None:
                continue
            context = pid, flags & INTERRUPT
            if form.name == STACK:
                owner = last.pop(context, None)
                if owner is not None:
                    stack = stack_of(body)
                    owner.stack = stacks.setdefault(stack, stack)
                continue
            event = Event(time, self.cpu, form.name, pid, bool(flags & INTERRUPT), form.values(body))
            last[context] = event
            found.append(event)
        return found


def stack_of(body: bytes) -> tuple[int, ...]:
    """The addresses of a kernel_stack entry, the innermost first."""
    count = min(int.from_bytes(body[8:12], "little"), (len(body) - 16) // 8)
    return tuple(word for word in struct.unpack_from(f"<{count}Q", body, 16) if word not in (0, (1 << 64) - 1))
