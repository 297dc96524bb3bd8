#!/usr/bin/env python3
"""Writes crates/forkcheck/stdin and stdout: pairs of versions in bytes, and how they compare.

The answers are worked out here, by other code than the program's. Both follow one reading of the format.
"""
import hashlib
import pathlib
import random

MAX_SITES = 8
LIMIT = 2**32 - 1


def digest(label):
    return hashlib.sha256(label.encode()).digest()


def slot(timestamp, label=""):
    """A site's bytes: four of its timestamp, 32 of its digest, all zero at timestamp 0."""
    return timestamp.to_bytes(4, "big") + (digest(label) if timestamp else bytes(32))


def version(*slots):
    return b"".join(slots)


def read(size, data):
    """The slots, or a refusal as text."""
    if not 1 <= size <= MAX_SITES:
        return "refused 1"
    slots, at = [], 0
    for _ in range(size):
        if len(data) < at + 4:
            return f"refused 7 at {at}"
        timestamp = int.from_bytes(data[at : at + 4], "big")
        at += 4
        if len(data) < at + 32:
            return f"refused 7 at {at}"
        mark = data[at : at + 32]
        if timestamp == 0 and any(mark):
            return f"refused 7 at {at}"
        at += 32
        slots.append((timestamp, mark if timestamp else None))
    if len(data) > at:
        return f"refused 7 at {at}"
    return slots


def at_or_below(u, v):
    return all(s < t or (s == t and d == e) for (s, d), (t, e) in zip(u, v))


def answer(line):
    words = line.split(" ")
    if len(words) != 4:
        return "unknown"
    pairs = []
    for number, text in (words[0:2], words[2:4]):
        if not number.isdigit() or int(number) >= 2**64:
            return "unknown"
        if text != "." and (text == "" or len(text) % 2 or any(c not in "0123456789abcdef" for c in text)):
            return "unknown"
        pairs.append((int(number), b"" if text == "." else bytes.fromhex(text)))
    versions = []
    for size, data in pairs:
        found = read(size, data)
        if isinstance(found, str):
            return found
        versions.append(found)
    u, v = versions
    if len(u) != len(v):
        return "refused 1"
    below, above = at_or_below(u, v), at_or_below(v, u)
    return {(True, True): "equal", (True, False): "below", (False, True): "above", (False, False): "apart"}[below, above]


def hexed(data):
    return data.hex() or "."


def pair(u, v, size=None):
    return f"{size or len(u) // 36} {hexed(u)} {size or len(v) // 36} {hexed(v)}"


def lines():
    zero = version(slot(0), slot(0))
    one = version(slot(1, "a"), slot(0))
    # the worked examples
    yield pair(one, version(slot(1, "a"), slot(1, "b")))
    yield pair(one, version(slot(1, "c"), slot(1, "b")))
    yield pair(version(slot(2, "d"), slot(0)), version(slot(1, "a"), slot(1, "b")))
    yield pair(zero, zero)
    yield pair(zero, one)
    yield pair(one, zero)
    # two sizes, and sizes out of range
    yield pair(one, version(slot(1, "a")))
    yield pair(version(slot(0)), version(*[slot(0)] * 8))
    for size in (0, 9, 10, 255, 256, 257, 65537, 2**64 - 1):
        yield f"{size} . 1 {hexed(slot(0))}"
        yield f"1 {hexed(slot(0))} {size} ."
    yield pair(version(*[slot(0)] * 8), version(*[slot(1, "x")] * 8))
    # bad bytes: a digest at timestamp 0, a field cut short, bytes to spare
    for at in (4, 20, 35):
        bad = bytearray(slot(0))
        bad[at] = 1
        yield f"1 {bad.hex()} 1 {hexed(slot(0))}"
        yield f"2 {(slot(1, 'a') + bad).hex()} 2 {hexed(zero)}"
    for length in (0, 1, 3, 4, 5, 35, 36, 39, 40, 71, 73, 108):
        data = (one + one)[:length]
        yield f"2 {hexed(data)} 2 {hexed(one)}"
        yield f"2 {hexed(one)} 2 {hexed(data)}"
    # a digest of 32 zero bytes above timestamp 0 is a digest like any other
    blank = (1).to_bytes(4, "big") + bytes(32)
    yield f"1 {blank.hex()} 1 {blank.hex()}"
    yield f"1 {blank.hex()} 1 {slot(1, 'a').hex()}"
    yield f"1 {slot(0).hex()} 1 {blank.hex()}"
    # timestamps at the limit and at byte edges
    for low, high in ((LIMIT - 1, LIMIT), (255, 256), (65535, 65536), (2**24 - 1, 2**24), (1, LIMIT)):
        yield pair(slot(low, "a"), slot(high, "a"))
        yield pair(slot(high, "b"), slot(low, "a"))
    # lines of another shape
    yield ""
    yield "1"
    yield "2 " + hexed(one)
    yield pair(one, one) + " "
    yield pair(one, one) + " 1"
    yield pair(one, one).replace(" ", "  ", 1)
    yield pair(one, one).upper()
    yield pair(one, one)[:-1]
    yield "x " + hexed(one) + " 2 " + hexed(one)
    yield "-1 " + hexed(one) + " 2 " + hexed(one)
    yield "2 0g 2 " + hexed(one)
    yield "18446744073709551616 . 1 ."
    yield "# 1 . 1 ."
    # versions of every size, with one site changed, or two
    pick = random.Random(11)
    for size in range(1, MAX_SITES + 1):
        for _ in range(24):
            base = [(pick.randrange(4), pick.choice("ab")) for _ in range(size)]
            other = list(base)
            for _ in range(pick.randrange(3)):
                other[pick.randrange(size)] = (pick.randrange(4), pick.choice("ab"))
            yield pair(version(*(slot(*s) for s in base)), version(*(slot(*s) for s in other)))


def main():
    folder = pathlib.Path(__file__).resolve().parent.parent / "crates" / "forkcheck"
    asked = list(lines())
    (folder / "stdin").write_text("".join(line + "\n" for line in asked))
    (folder / "stdout").write_text("".join(answer(line) + "\n" for line in asked))


if __name__ == "__main__":
    main()
