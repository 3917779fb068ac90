"""Names that all have the same hash for one seed, and the longest declaration of them.

The hash is the one of crates/wq_items/src/hashing.rt. After its first 16 bytes a name of 32 leaves a state of 8 bytes. If the next 8
bytes of the name are these, what is multiplied then is 0, whatever the last 8 bytes are. So who knows the seed looks for a beginning
whose state could stand in a name, and has as many names as they like. `SEED` is that of `ItemTable::read`.
"""

import random
import string

SEED = 0
START = 0x243F6A8885A308D3
MULTIPLIER = 0x9E3779B97F4A7C15
WORD = 2**64 - 1
NAME_BYTES = (string.ascii_letters + string.digits + "_-.").encode("ascii")


def fold(a, b):
    """Both halves of a product of two words, joined by xor."""
    product = a * b
    return (product & WORD) ^ (product >> 64)


def word(data, at):
    return int.from_bytes(data[at:at + 8], "little")


def begun(seed):
    """The state once the seed is hashed."""
    return fold(START ^ seed, MULTIPLIER ^ 16)


def after_block(seed, block):
    """The state after the first 16 bytes of a name of 32."""
    return fold(word(block, 0) ^ (begun(seed) + 32) & WORD, word(block, 8) ^ MULTIPLIER)


def finished(seed, name):
    """The hash of a name of 32 bytes."""
    state = fold(word(name, 16) ^ after_block(seed, name), word(name, 24) ^ MULTIPLIER)
    return fold(state ^ seed, MULTIPLIER ^ 16)


def beginning(seed):
    """24 bytes with which each name of 32 bytes has the same hash."""
    draws = random.Random(1)
    while True:
        block = bytes(draws.choices(NAME_BYTES, k=16))
        state = after_block(seed, block).to_bytes(8, "little")
        if all(byte in NAME_BYTES for byte in state):
            return (block + state).decode("ascii")


def names(count, seed=SEED):
    first = beginning(seed)
    return [f"{first}{i:08x}" for i in range(count)]


def declaration(items, flushes, seed=SEED):
    """So many items, and so many flushes of the last item but one by the last one: it takes longest to find these two."""
    called = names(items, seed)
    source, target = called[-1], called[-2]
    on_line = 100
    lines = [f"item {name}\n" for name in called]
    lines += [f"flush {source}" + f" {target}" * min(on_line, flushes - first) + "\n" for first in range(0, flushes, on_line)]
    return "".join(lines)
