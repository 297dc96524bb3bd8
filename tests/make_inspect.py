#!/usr/bin/env python3
"""Writes crates/inspect/stdin and stdout: good and damaged messages, and what they say or where they do not read.

The answers are worked out here, by other code than the program's. Both follow one reading of the format.
"""
import pathlib
import random

READ, WRITE = 1, 2
NAMES = {READ: "read", WRITE: "write"}


class Bad(Exception):
    """The offset of the first bad, incomplete or surplus field."""


class Reader:
    def __init__(self, data, n, g):
        self.data, self.n, self.g, self.at = data, n, g, 0

    def part(self, size):
        if len(self.data) - self.at < size:
            raise Bad(self.at)
        self.at += size
        return self.data[self.at - size : self.at]

    def number(self, width, test=lambda x: True):
        start = self.at
        found = int.from_bytes(self.part(width), "big")
        if not test(found):
            raise Bad(start)
        return found

    def site(self):
        return self.number(1, lambda s: 1 <= s <= self.n)

    def code(self):
        return self.number(1, lambda c: c in NAMES)

    def register(self, site, code):
        return self.number(1, lambda r: 1 <= r <= self.n and (code == READ or r == site))

    def signature(self):
        return shown(self.part(self.g))

    def value(self, must=None):
        start = self.at
        try:
            size = self.number(2, lambda k: k <= 513)
            found = self.part(size - 1) if size else None
        except Bad:
            raise Bad(start) from None
        if must is not None and (found is not None) != must:
            raise Bad(start)
        return "absent" if found is None else shown(found)

    def version(self):
        start = self.at
        for _ in range(self.n):
            timestamp = self.number(4)
            at = self.at
            if any(self.part(32)) and timestamp == 0:
                raise Bad(at)
        return shown(self.data[start : self.at])

    def end(self):
        if self.at < len(self.data):
            raise Bad(self.at)


def shown(data):
    return data.hex() or "."


def submit(r):
    r.number(1, lambda k: k == 1)
    site, code = r.site(), r.code()
    words = ["submit", site, NAMES[code], r.register(site, code), r.number(4), r.signature(), r.value(code == WRITE), r.signature()]
    return words


def entry(r):
    site, code = r.site(), r.code()
    return ["entry", site, NAMES[code], r.register(site, code), r.signature()]


def reply(r):
    r.number(1, lambda k: k == 2)
    code = r.code()
    words = ["reply", NAMES[code], r.site(), r.version(), r.signature()]
    for _ in range(r.number(1, lambda k: k <= r.n)):
        words += entry(r)
    for _ in range(r.n):
        words += ["proof", r.signature()]
    if code == READ:
        words += ["found", r.version(), r.signature(), r.number(4), r.value(), r.signature()]
    return words


def commit(r):
    r.number(1, lambda k: k == 3)
    return ["commit", r.site(), r.version(), r.signature(), r.signature()]


def value_slot(r):
    return ["value-slot", r.number(4), r.value(), r.signature()]


def version_slot(r):
    return ["version-slot", r.version(), r.signature(), r.signature()]


KINDS = {"submit": submit, "reply": reply, "commit": commit, "value-slot": value_slot, "version-slot": version_slot}


def answer(kind, n, g, data):
    if kind != "value-slot" and not 1 <= n <= 8:
        return "refused 1"
    reader = Reader(data, n, g)
    try:
        words = KINDS[kind](reader)
        reader.end()
    except Bad as bad:
        return f"refused 7 at {bad}"
    return " ".join(str(word) for word in words)


class Maker:
    """Good messages with bytes of a seeded generator."""

    def __init__(self, seed):
        self.pick = random.Random(seed)

    def bytes(self, count):
        return bytes(self.pick.randrange(256) for _ in range(count))

    def version(self, n):
        slots = []
        for _ in range(n):
            timestamp = self.pick.choice((0, 0, 1, 7, 2**32 - 1))
            slots.append(timestamp.to_bytes(4, "big") + (self.bytes(32) if timestamp else bytes(32)))
        return b"".join(slots)

    def value(self, length):
        return bytes(2) if length is None else (length + 1).to_bytes(2, "big") + self.bytes(length)

    def operation(self, n, code):
        site = self.pick.randrange(1, n + 1)
        return bytes((site, code, site if code == WRITE else self.pick.randrange(1, n + 1)))

    def submit(self, n, g, code, length):
        return b"\x01" + self.operation(n, code) + self.bytes(4 + g) + self.value(length) + self.bytes(g)

    def reply(self, n, g, code, count, length):
        entries = b"".join(self.operation(n, self.pick.choice((READ, WRITE))) + self.bytes(g) for _ in range(count))
        head = bytes((2, code, self.pick.randrange(1, n + 1))) + self.version(n) + self.bytes(g)
        found = self.version(n) + self.bytes(g + 4) + self.value(length) + self.bytes(g) if code == READ else b""
        return head + bytes((count,)) + entries + self.bytes(n * g) + found

    def commit(self, n, g):
        return bytes((3, self.pick.randrange(1, n + 1))) + self.version(n) + self.bytes(2 * g)

    def value_slot(self, g, length):
        return self.bytes(4) + self.value(length) + self.bytes(g)

    def version_slot(self, n, g):
        return self.version(n) + self.bytes(2 * g)


def good(make):
    for n, g in ((1, 1), (2, 32), (3, 8), (8, 64)):
        yield "submit", n, g, make.submit(n, g, READ, None)
        for length in (0, 1, 16, 512):
            yield "submit", n, g, make.submit(n, g, WRITE, length)
        for count in (0, 1, n):
            yield "reply", n, g, make.reply(n, g, WRITE, count, None)
            yield "reply", n, g, make.reply(n, g, READ, count, 5)
        yield "reply", n, g, make.reply(n, g, READ, 0, None)
        yield "commit", n, g, make.commit(n, g)
        yield "value-slot", n, g, make.value_slot(g, None)
        yield "value-slot", n, g, make.value_slot(g, 3)
        yield "version-slot", n, g, make.version_slot(n, g)


def damaged(make):
    # the commit of two sites with timestamps 1 and 0 and a digest byte that is not zero where there is no digest
    yield "commit", 2, 32, bytes((3, 1)) + b"\0\0\0\x01" + make.bytes(32) + bytes(35) + b"\x09" + make.bytes(64)
    # values of 513 bytes, and sizes that say more than is there
    for size in (513, 514, 515, 65535):
        yield "submit", 2, 1, b"\x01\x02\x02\x02" + bytes(4) + b"s" + size.to_bytes(2, "big") + make.bytes(min(size - 1, 600)) + b"d"
    yield "submit", 2, 1, b"\x01\x02\x02\x02" + bytes(4) + b"s" + b"\0\x05abc"
    # cut short at every byte, and one or more bytes to spare
    for kind, data in (
        ("submit", make.submit(2, 2, WRITE, 3)),
        ("commit", make.commit(1, 2)),
        ("reply", make.reply(1, 1, READ, 1, 2)),
        ("value-slot", make.value_slot(2, 2)),
        ("version-slot", make.version_slot(1, 2)),
    ):
        n, g = (2, 2) if kind == "submit" else (1, 1) if kind == "reply" else (1, 2)
        for length in range(len(data)):
            yield kind, n, g, data[:length]
        yield kind, n, g, data + b"\0"
        yield kind, n, g, data + make.bytes(40)
    # each of the first bytes changed
    for kind, data in (("submit", make.submit(3, 1, WRITE, 2)), ("reply", make.reply(3, 1, READ, 2, 2)), ("commit", make.commit(3, 1))):
        for at in range(12):
            for byte in (0, 1, 2, 3, 4, 255):
                yield kind, 3, 1, data[:at] + bytes((byte,)) + data[at + 1 :]
    # the count of entries, and an entry's own fields
    for count in range(6):
        data = bytearray(make.reply(3, 1, WRITE, 3, None))
        data[3 + 108 + 1] = count
        yield "reply", 3, 1, bytes(data)
    for at in range(3 + 108 + 2, 3 + 108 + 2 + 12):
        for byte in (0, 1, 2, 3, 4):
            data = bytearray(make.reply(3, 1, WRITE, 3, None))
            data[at] = byte
            yield "reply", 3, 1, bytes(data)


def groups(make):
    for n in (0, 9, 255, 256, 2**64 - 1):
        for kind in KINDS:
            yield kind, n, 1, make.commit(1, 1)


UNKNOWN = ["", "submit", "submit 1 1", "submit 1 1 . .", "hello 1 1 .", "submit x 1 .", "submit 1 x .", "submit 1 1 0", "commit 1 1 AB", "submit  1 1 ."]


def main():
    make = Maker(7)
    folder = pathlib.Path(__file__).resolve().parent.parent / "crates" / "inspect"
    lines = [(f"{k} {n} {g} {shown(d)}", answer(k, n, g, d)) for part in (good, damaged, groups) for k, n, g, d in part(make)]
    lines += [(line, "unknown") for line in UNKNOWN]
    (folder / "stdin").write_text("".join(asked + "\n" for asked, _ in lines))
    (folder / "stdout").write_text("".join(told + "\n" for _, told in lines))
    print(f"{len(lines)} lines")


if __name__ == "__main__":
    main()
