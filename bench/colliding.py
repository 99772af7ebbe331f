#!/usr/bin/env python3
"""Makes records whose control pairs collide by the kit's hasher: bench/colliding.py COUNT > FILE

The index is a hash map of the kit (indexmap). The kit's hasher FoldHasher multiplies 16 bytes at a time to 128 bits and joins the halves
by xor, from a state that is the same in every run; the program's does the same by a state and a multiplier that each run draws, so these
records should cost it no more than others. Where the first 8 of 16 bytes are the state itself, the product is 0 and so is the state after
it, whatever the other 8 bytes are. So a source is looked for after which the state is 8 printable bytes, and all numbers that begin with
these 8 bytes and have 16 are alike to FoldHasher. The homes of a library's records are a map of the same kind, in which a control number
stands alone; there 16 bytes are looked for after which the state is 8 printable bytes.
"""
import sys

MULTIPLIER = 0x9E3779B97F4A7C15
INITIAL = 0x243F6A8885A308D3
WORD = 2**64 - 1
SUFFIX = "ABCDEFGHIJKLMNOPQRSTUVWXYZabcdefghijklmnopqrstuvwxyz0123456789"


def folded(a, b):
    product = a * b
    return (product & WORD) ^ (product >> 64)


def number_at(text, at, size):
    return int.from_bytes(text[at : at + size], "little")


def short(text):
    if len(text) >= 4:
        return number_at(text, 0, 4) | number_at(text, len(text) - 4, 4) << 32
    if text:
        return text[0] | text[len(text) // 2] << 8 | text[-1] << 16
    return 0


def written(state, text):
    """The hasher's state after these bytes."""
    size = len(text)
    if size <= 8:
        return folded(state ^ short(text), MULTIPLIER ^ 2 * size)
    state, at = (state + size) & WORD, 0
    while size - at > 16:
        state = folded(number_at(text, at, 8) ^ state, number_at(text, at + 8, 8) ^ MULTIPLIER)
        at += 16
    return folded(number_at(text, max(size - 16, 0), 8) ^ state, number_at(text, size - 8, 8) ^ MULTIPLIER)


def after(*pieces):
    """The hasher's state after these pieces, which is the hash."""
    state = INITIAL
    for piece in pieces:
        state = written(state, piece)
    return state


def hash_of(source, number):
    """The hash of a control pair: the number of its kind, and its two texts, each with a byte 0xFF after it."""
    return after(b"\0", source, b"\xff", number, b"\xff")


def is_printable(text):
    """Whether it can stand in a field that is written with `$` for the mark of a subfield."""
    return all(0x21 <= byte <= 0x7E and byte != 0x24 for byte in text)


def colliding():
    """A source, and the 8 bytes with which numbers of 16 bytes have to begin."""
    for at in range(10**7):
        source = b"S%d" % at
        first = ((after(b"\0", source, b"\xff") + 16) & WORD).to_bytes(8, "little")
        if is_printable(first):
            return source, first
    raise ValueError("no source is found")


def suffix(at):
    """Eight letters and digits that differ for each number."""
    text = ""
    for _ in range(8):
        at, digit = divmod(at, len(SUFFIX))
        text += SUFFIX[digit]
    return text.encode()


def colliding_pairs(count):
    source, first = colliding()
    pairs = [(source, first + suffix(at)) for at in range(count)]
    assert len({hash_of(*pair) for pair in pairs[:1000]}) == 1
    return pairs


def colliding_numbers(count):
    """As many control numbers of 32 bytes whose homes collide: 16 bytes, the state after them, and 8 bytes that differ."""
    for at in range(10**7):
        front = b"%016d" % at
        state = folded(number_at(front, 0, 8) ^ (INITIAL + 32), number_at(front, 8, 8) ^ MULTIPLIER).to_bytes(8, "little")
        if is_printable(state):
            numbers = [front + state + suffix(it) for it in range(count)]
            assert len({after(it, b"\xff") for it in numbers[:1000]}) == 1
            return numbers
    raise ValueError("no front is found")


if __name__ == "__main__":
    from hostile_records import with_pairs

    sys.stdout.buffer.write(with_pairs(colliding_pairs(int(sys.argv[1]))))
