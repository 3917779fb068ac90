"""The offsets of members of structs, from a kernel's own types (/sys/kernel/btf/vmlinux, Documentation/bpf/btf.rst)."""

import struct
from typing import Iterator

MAGIC = 0xEB9F
STRUCT = 4
# How many bytes follow a type of a kind, and how many for each of its members or values.
BEHIND = {1: 4, 3: 12, 14: 4, 17: 4}
FOR_EACH = {4: 12, 5: 12, 6: 8, 13: 8, 15: 12, 19: 12}


class NoTypes(Exception):
    """The bytes aren't BTF."""


def structs(data: bytes, wanted: set[str]) -> dict[str, dict[str, int]]:
    """Of the structs of these names the offset of each member, in bytes."""
    magic, _, _, head, type_at, type_size, string_at, string_size = struct.unpack_from(
        "<HBBIIIII", data.ljust(24, b"\0")
    )
    if magic != MAGIC:
        raise NoTypes("this is no BTF (the kernel's is /sys/kernel/btf/vmlinux)")
    strings = data[head + string_at : head + string_at + string_size]

    def name(at: int) -> str:
        return strings[at : strings.index(b"\0", at)].decode()

    found = {}
    for kind, name_at, members in types(data, head + type_at, head + type_at + type_size):
        if kind == STRUCT and name_at and name(name_at) in wanted:
            found[name(name_at)] = {name(member): offset for member, offset in members}
    return found


def types(data: bytes, at: int, end: int) -> Iterator[tuple[int, int, Iterator[tuple[int, int]]]]:
    """Each type: its kind, where its name is, and for a struct of each member where its name is, and its offset."""
    while at < end:
        name_at, info, _ = struct.unpack_from("<III", data, at)
        kind, count, has_bits = (info >> 24) & 31, info & 0xFFFF, info >> 31
        at += 12
        yield kind, name_at, members_of(data, at, count if kind == STRUCT else 0, bool(has_bits))
        at += BEHIND.get(kind, 0) + FOR_EACH.get(kind, 0) * count


def members_of(data: bytes, at: int, count: int, has_bits: bool) -> Iterator[tuple[int, int]]:
    for number in range(count):
        name_at, _, offset = struct.unpack_from("<III", data, at + 12 * number)
        yield name_at, (offset & 0xFFFFFF if has_bits else offset) // 8
