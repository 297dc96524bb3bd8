#!/usr/bin/env python3
"""A second implementation of the register group, from docs/RULES.md and docs/FORMAT.md alone.

It reads the lines of the program `console` and answers them, so that the two can be compared:

    python3 tests/second_program.py < crates/console/stdin | diff - crates/console/stdout

It shares no code with the crates. Digests and keyed hashes are Python's hashlib and hmac.
"""
import hashlib
import hmac
import re
import sys

MAX_STAMP = 4294967295
MAX_VALUE = 512
MAX_TEXT = 320
MAX_SLOT = 1024
MAX_ROOM = 4096
READ, WRITE = 1, 2


class Refused(Exception):
    def __init__(self, number, offset=None):
        self.number, self.offset = number, offset


class Stopped(Exception):
    def __init__(self, number):
        self.number = number


class Unknown(Exception):
    pass


# ---- versions: a tuple of (timestamp, digest or None), one for each site

def zero(n):
    return ((0, None),) * n


def below(u, v):
    return all(a <= b and (a < b or d == e) for (a, d), (b, e) in zip(u, v))


def order(u, v):
    if len(u) != len(v):
        raise Refused(1)
    if u == v:
        return "equal"
    if below(u, v):
        return "below"
    if below(v, u):
        return "above"
    return "apart"


def version_bytes(v):
    return b"".join(t.to_bytes(4, "big") + (d if d is not None else bytes(32)) for t, d in v)


# ---- reading: a cursor that raises with the offset of the field that is bad or incomplete

class Reader:
    def __init__(self, data):
        self.data, self.at = data, 0

    def bad(self, at):
        raise Refused(7, at)

    def take(self, size):
        if self.at + size > len(self.data):
            self.bad(self.at)
        part = self.data[self.at:self.at + size]
        self.at += size
        return part

    def byte(self, good):
        at = self.at
        b = self.take(1)[0]
        if not good(b):
            self.bad(at)
        return b

    def number(self, size):
        return int.from_bytes(self.take(size), "big")

    def version(self, n):
        slots = []
        for _ in range(n):
            t = self.number(4)
            at = self.at
            d = self.take(32)
            if t == 0 and d != bytes(32):
                self.bad(at)
            slots.append((t, None if t == 0 else d))
        return tuple(slots)

    def value(self, good=lambda v: True):
        at = self.at
        try:
            size = self.number(2)
            if size > MAX_VALUE + 1:
                self.bad(at)
            value = None if size == 0 else self.take(size - 1)
        except Refused:
            self.bad(at)
        if not good(value):
            self.bad(at)
        return value

    def end(self):
        if self.at != len(self.data):
            self.bad(self.at)


def value_bytes(value):
    return bytes(2) if value is None else (len(value) + 1).to_bytes(2, "big") + value


def operation_fields(reader, n, site=None):
    """site, code and register, as in a submit and in an entry"""
    site = reader.byte(lambda b: 1 <= b <= n)
    code = reader.byte(lambda b: b in (READ, WRITE))
    register = reader.byte(lambda b: 1 <= b <= n and (code == READ or b == site))
    return site, code, register


def read_submit(n, g, data):
    r = Reader(data)
    r.byte(lambda b: b == 1)
    site, code, register = operation_fields(r, n)
    stamp = r.number(4)
    submit_signature = r.take(g)
    value = r.value(lambda v: (v is None) == (code == READ))
    data_signature = r.take(g)
    r.end()
    return dict(site=site, code=code, register=register, stamp=stamp, submit=submit_signature, value=value, data=data_signature)


def submit_bytes(m):
    return bytes([1, m["site"], m["code"], m["register"]]) + m["stamp"].to_bytes(4, "big") + m["submit"] + value_bytes(m["value"]) + m["data"]


def read_reply(n, g, data, code=None):
    r = Reader(data)
    r.byte(lambda b: b == 2)
    code = r.byte(lambda b: b in (READ, WRITE) and (code is None or b == code))
    committer = r.byte(lambda b: 1 <= b <= n)
    version = r.version(n)
    commit_signature = r.take(g)
    count = r.byte(lambda b: b <= n)
    entries = []
    for _ in range(count):
        entries.append(operation_fields(r, n) + (r.take(g),))
    proofs = [r.take(g) for _ in range(n)]
    found = None
    if code == READ:
        owner, owner_signature, stamp = r.version(n), r.take(g), r.number(4)
        value = r.value()
        place = (r.at - len(value), len(value)) if value is not None else None
        found = dict(version=owner, signature=owner_signature, stamp=stamp, value=value, place=place, data=r.take(g))
    r.end()
    return dict(code=code, committer=committer, version=version, signature=commit_signature, entries=entries, proofs=proofs, found=found)


def reply_bytes(a):
    out = bytes([2, a["code"], a["committer"]]) + version_bytes(a["version"]) + a["signature"] + bytes([len(a["entries"])])
    for site, code, register, signature in a["entries"]:
        out += bytes([site, code, register]) + signature
    out += b"".join(a["proofs"])
    if a["found"] is not None:
        f = a["found"]
        out += version_bytes(f["version"]) + f["signature"] + f["stamp"].to_bytes(4, "big") + value_bytes(f["value"]) + f["data"]
    return out


def read_commit(n, g, data):
    r = Reader(data)
    r.byte(lambda b: b == 3)
    site = r.byte(lambda b: 1 <= b <= n)
    m = dict(site=site, version=r.version(n), signature=r.take(g), proof=r.take(g))
    r.end()
    return m


def commit_bytes(m):
    return bytes([3, m["site"]]) + version_bytes(m["version"]) + m["signature"] + m["proof"]


def read_value_slot(g, data):
    r = Reader(data)
    m = dict(stamp=r.number(4), value=r.value(), data=r.take(g))
    r.end()
    return m


def read_version_slot(n, g, data):
    r = Reader(data)
    m = dict(version=r.version(n), signature=r.take(g), proof=r.take(g))
    r.end()
    return m


# ---- signed strings

def submit_string(code, register, stamp):
    return b"SUBM" + bytes([code, register]) + stamp.to_bytes(4, "big")


def data_string(stamp, digest):
    return b"DATA" + stamp.to_bytes(4, "big") + (digest or b"")


def commit_string(version):
    return b"COMM" + version_bytes(version)


def proof_string(digest):
    return b"PROF" + digest


# ---- schemes

class Hmac:
    g = 32

    def __init__(self, keys):
        self.keys = [keys[32 * i:32 * i + 32] for i in range(8)]

    def left(self, site):
        if not 1 <= site <= 8:
            raise Refused(1)
        return MAX_STAMP

    def mac(self, site, text):
        return hmac.new(self.keys[site - 1], text, hashlib.sha256).digest()

    def sign(self, site, text, room=64):
        if not 1 <= site <= 8:
            raise Refused(1)
        if len(text) > MAX_TEXT:
            raise Refused(4)
        if room < self.g:
            raise Refused(11)
        return self.mac(site, text)

    def check(self, site, text, signature):
        return 1 <= site <= 8 and len(text) <= MAX_TEXT and signature == self.mac(site, text)


class Ledger:
    g = 8
    each = 16

    def __init__(self):
        self.entries = []

    def left(self, site):
        if not 1 <= site <= 8:
            raise Refused(1)
        return self.each - sum(1 for s, _ in self.entries if s == site)

    def sign(self, site, text, room=64):
        if not 1 <= site <= 8:
            raise Refused(1)
        if len(text) > MAX_TEXT:
            raise Refused(4)
        if self.left(site) == 0:
            raise Refused(6)
        if room < self.g:
            raise Refused(11)
        self.entries.append((site, text))
        return len(self.entries).to_bytes(8, "big")

    def check(self, site, text, signature):
        serial = int.from_bytes(signature, "big")
        return len(signature) == 8 and 1 <= serial <= len(self.entries) and self.entries[serial - 1] == (site, text)


# ---- stores

class Table:
    def __init__(self):
        self.slots = {}

    def left(self):
        return MAX_STAMP

    def read(self, kind, site):
        if not 1 <= site <= 8:
            raise Refused(1)
        return self.slots.get((kind, site), b"")

    def write(self, kind, site, data):
        if not 1 <= site <= 8:
            raise Refused(1)
        if len(data) > MAX_SLOT:
            raise Refused(4)
        self.slots[(kind, site)] = data


class Wear:
    def __init__(self, store, allowance):
        self.below, self.allowance = store, allowance

    def left(self):
        return min(self.allowance, self.below.left())

    def read(self, kind, site):
        return self.below.read(kind, site)

    def write(self, kind, site, data):
        if self.left() == 0:
            raise Refused(10)
        self.below.write(kind, site, data)
        self.allowance -= 1


# ---- the group

class Site:
    def __init__(self, group, number):
        self.group, self.number = group, number
        self.version, self.last, self.phase = zero(group.n), None, "idle"
        self.waiting = None

    def own(self):
        return self.version[self.number - 1][0]

    def begin(self, code, register, value, room):
        group = self.group
        if code == READ and not 1 <= register <= group.n:
            raise Refused(1)
        if self.phase in ("stopped", "retired"):
            raise Refused(2)
        if self.phase == "waiting":
            raise Refused(3)
        if value is not None and len(value) > MAX_VALUE:
            raise Refused(4)
        if self.own() == MAX_STAMP:
            raise Refused(5)
        if group.scheme.left(self.number) < 4:
            raise Refused(6)
        if room < 10 + 2 * group.g + len(value or b""):
            raise Refused(11)
        stamp = self.own() + 1
        if value is not None:
            self.last = group.digest(value)
        m = dict(site=self.number, code=code, register=register, stamp=stamp, value=value)
        m["submit"] = group.scheme.sign(self.number, submit_string(code, register, stamp))
        m["data"] = group.scheme.sign(self.number, data_string(stamp, self.last))
        self.phase, self.waiting = "waiting", (code, register)
        return stamp, submit_bytes(m)

    def finish(self, ticket, data, room):
        group = self.group
        if self.phase in ("stopped", "retired"):
            raise Refused(2)
        if self.phase != "waiting" or ticket != (self.number, self.own() + 1):
            raise Refused(3)
        if group.scheme.left(self.number) < 2:
            raise Refused(6)
        code, register = self.waiting
        a = read_reply(group.n, group.g, data, code)
        if room < 2 + 36 * group.n + 2 * group.g:
            raise Refused(11)
        try:
            version, digest = self.checked(a, register)
        except Stopped:
            self.phase, self.waiting = "stopped", None
            raise
        self.version, self.phase, self.waiting = version, "idle", None
        m = dict(site=self.number, version=version)
        m["signature"] = group.scheme.sign(self.number, commit_string(version))
        m["proof"] = group.scheme.sign(self.number, proof_string(digest))
        return code, commit_bytes(m), a["found"]

    def checked(self, a, register):
        """the running version and digest after the list and the own operation, or the check that fails"""
        group, check, me = self.group, self.group.scheme.check, self.number - 1
        committed = a["version"]
        if committed != zero(group.n) and not check(a["committer"], commit_string(committed), a["signature"]):
            raise Stopped(21)
        if not below(self.version, committed) or self.version[me][0] != committed[me][0]:
            raise Stopped(22)
        running, digest = list(committed), committed[a["committer"] - 1][1]

        def rise(site):
            nonlocal digest
            digest = group.digest((digest or b"") + bytes([site]))
            running[site - 1] = (running[site - 1][0] + 1, digest)

        for site, code, entry_register, signature in a["entries"]:
            stamp, known = running[site - 1]
            if known is not None and not check(site, proof_string(known), a["proofs"][site - 1]):
                raise Stopped(23)
            if site == self.number:
                raise Stopped(24)
            if stamp == MAX_STAMP or not check(site, submit_string(code, entry_register, stamp + 1), signature):
                raise Stopped(25)
            rise(site)
        rise(self.number)
        if a["found"] is not None:
            self.check_found(a["found"], committed, running, register)
        return tuple(running), digest

    def check_found(self, f, committed, running, owner):
        group, check = self.group, self.group.scheme.check
        if f["version"] != zero(group.n) and not check(owner, commit_string(f["version"]), f["signature"]):
            raise Stopped(26)
        if f["stamp"] == 0:
            if f["value"] is not None:
                raise Stopped(27)
        else:
            digest = None if f["value"] is None else group.digest(f["value"])
            if not check(owner, data_string(f["stamp"], digest), f["data"]):
                raise Stopped(27)
        if not below(f["version"], committed) or f["stamp"] != running[owner - 1][0]:
            raise Stopped(28)
        if f["version"][owner - 1][0] not in (f["stamp"], f["stamp"] - 1):
            raise Stopped(29)

    def abandon(self, ticket):
        if self.phase in ("stopped", "retired"):
            raise Refused(2)
        if self.phase != "waiting" or ticket != (self.number, self.own() + 1):
            raise Refused(3)
        self.phase, self.waiting = "retired", None


class Group:
    def __init__(self, n, scheme, digest, store):
        if not 1 <= n <= 8:
            raise Refused(1)
        self.n, self.scheme, self.g, self.digest, self.store = n, scheme, scheme.g, digest, store
        self.sites = [Site(self, i + 1) for i in range(n)]
        self.tickets = [None] * n
        self.committer, self.list = 1, []

    def value_slot(self, site):
        try:
            return read_value_slot(self.g, self.store.read("value", site))
        except Refused:
            return dict(stamp=0, value=None, data=bytes(self.g))

    def version_slot(self, site):
        try:
            return read_version_slot(self.n, self.g, self.store.read("version", site))
        except Refused:
            return dict(version=zero(self.n), signature=bytes(self.g), proof=bytes(self.g))

    def take_submit(self, data, room):
        m = read_submit(self.n, self.g, data)
        site = m["site"]
        old = self.value_slot(site)
        if m["stamp"] != old["stamp"] + 1 or old["stamp"] != self.version_slot(site)["version"][site - 1][0]:
            raise Refused(8)
        if len(self.list) == self.n:
            raise Refused(9)
        if self.store.left() == 0:
            raise Refused(10)
        new = dict(stamp=m["stamp"], value=m["value"] if m["code"] == WRITE else old["value"], data=m["data"])
        leader = self.version_slot(self.committer)
        found = None
        if m["code"] == READ:
            owner = self.version_slot(m["register"])
            value = new if m["register"] == site else self.value_slot(m["register"])
            found = dict(version=owner["version"], signature=owner["signature"], stamp=value["stamp"], value=value["value"], data=value["data"])
        reply = reply_bytes(dict(
            code=m["code"], committer=self.committer, version=leader["version"], signature=leader["signature"], entries=list(self.list),
            proofs=[self.version_slot(i + 1)["proof"] for i in range(self.n)], found=found))
        if room < len(reply):
            raise Refused(11)
        self.store.write("value", site, new["stamp"].to_bytes(4, "big") + value_bytes(new["value"]) + new["data"])
        self.list.append((site, m["code"], m["register"], m["submit"]))
        return reply

    def take_commit(self, data):
        m = read_commit(self.n, self.g, data)
        site = m["site"]
        own = m["version"][site - 1][0]
        if own != self.value_slot(site)["stamp"] or own == self.version_slot(site)["version"][site - 1][0]:
            raise Refused(8)
        if self.store.left() == 0:
            raise Refused(10)
        pairs = list(zip(m["version"], self.version_slot(self.committer)["version"]))
        if all(a[0] >= b[0] for a, b in pairs) and any(a[0] > b[0] for a, b in pairs):
            self.committer = site
            mine = [k for k, e in enumerate(self.list) if e[0] == site]
            if mine:
                self.list = self.list[mine[-1] + 1:]
        self.store.write("version", site, version_bytes(m["version"]) + m["signature"] + m["proof"])


# ---- the console

DIGESTS = {"sha256": lambda b: hashlib.sha256(b).digest(), "sha3-256": lambda b: hashlib.sha3_256(b).digest()}


def number(word, most=2 ** 64 - 1):
    if not re.fullmatch(r"[0-9]+", word) or int(word) > most:
        raise Unknown
    return int(word)


def unhex(word):
    if word == ".":
        return b""
    if not re.fullmatch(r"([0-9a-f]{2})+", word):
        raise Unknown
    return bytes.fromhex(word)


def text(data):
    return data.hex() or "."


class Console:
    def __init__(self):
        self.groups = {}

    def answer(self, line):
        if line == "" or line.startswith("#"):
            return line
        try:
            words = line.split(" ")
            call = getattr(self, "do_" + words[0], None)
            if call is None:
                raise Unknown
            return call(*words[1:])
        except (Unknown, TypeError):
            return "unknown"
        except Refused as e:
            return "refused %d" % e.number + ("" if e.offset is None else " at %d" % e.offset)
        except Stopped as e:
            return "stopped %d" % e.number

    def group(self, word):
        group = self.groups.get(number(word))
        if group is None:
            raise Unknown
        return group

    def site(self, group, word):
        i = number(word)
        if not 1 <= i <= group.n:
            raise Unknown
        return group.sites[i - 1]

    def room(self, words):
        if len(words) > 1:
            raise Unknown
        return number(words[0], MAX_ROOM) if words else MAX_ROOM

    def do_start(self, g, size, scheme, digest, store):
        g, size = number(g), number(size)
        if not 1 <= g <= 4 or digest not in DIGESTS:
            raise Unknown
        if scheme == "ledger":
            scheme = Ledger()
        elif scheme.startswith("hmac:") and len(unhex(scheme[5:])) == 256:
            scheme = Hmac(unhex(scheme[5:]))
        else:
            raise Unknown
        if store == "table":
            store = Table()
        elif store.startswith("wear:"):
            store = Wear(Table(), number(store[5:], MAX_STAMP))
        else:
            raise Unknown
        self.groups[g] = Group(size, scheme, DIGESTS[digest], store)
        return "started"

    def begin(self, g, site, code, register, value, room):
        group = self.group(g)
        site = self.site(group, site)
        stamp, data = site.begin(code, register if code == READ else site.number, value, self.room(room))
        group.tickets[site.number - 1] = (site.number, stamp)
        return "begun %d %s" % (stamp, text(data))

    def do_read(self, g, site, register, *room):
        return self.begin(g, site, READ, number(register), None, room)

    def do_write(self, g, site, value, *room):
        return self.begin(g, site, WRITE, None, unhex(value), room)

    def ticket(self, group, site):
        ticket = group.tickets[site.number - 1]
        if ticket is None:
            raise Unknown
        return ticket

    def do_finish(self, g, site, data, *room):
        group = self.group(g)
        site, data, room = self.site(group, site), unhex(data), self.room(room)
        ticket = self.ticket(group, site)
        try:
            code, commit, found = site.finish(ticket, data, room)
        except Stopped:
            group.tickets[site.number - 1] = None
            raise
        group.tickets[site.number - 1] = None
        answer = "finished " + text(commit)
        if code == READ:
            answer += " absent" if found["value"] is None else " value %d %d %s" % (found["place"] + (text(found["value"]),))
        return answer

    def do_abandon(self, g, site):
        group = self.group(g)
        site = self.site(group, site)
        site.abandon(self.ticket(group, site))
        group.tickets[site.number - 1] = None
        return "abandoned"

    def do_submit(self, g, data, *room):
        return "reply " + text(self.group(g).take_submit(unhex(data), self.room(room)))

    def do_commit(self, g, data):
        self.group(g).take_commit(unhex(data))
        return "taken"

    def do_version(self, g, site):
        group = self.group(g)
        return text(version_bytes(self.site(group, site).version))

    def do_state(self, g, site):
        site = self.site(self.group(g), site)
        return "waiting %d" % (site.own() + 1) if site.phase == "waiting" else site.phase

    def do_left(self, g, site):
        return str(self.group(g).scheme.left(number(site)))

    def do_rewrites(self, g):
        return str(self.group(g).store.left())

    def do_compare(self, m, u, n, v):
        m, u, n, v = number(m), unhex(u), number(n), unhex(v)
        return order(self.one_version(m, u), self.one_version(n, v))

    def one_version(self, n, data):
        if not 1 <= n <= 8:
            raise Refused(1)
        r = Reader(data)
        v = r.version(n)
        r.end()
        return v

    def do_digest(self, kind, data):
        if kind not in DIGESTS:
            raise Unknown
        return text(DIGESTS[kind](unhex(data)))

    def do_hmac(self, key, data):
        key, data = unhex(key), unhex(data)
        if len(key) != 32:
            raise Unknown
        return text(hmac.new(key, data, hashlib.sha256).digest())

    def do_sign(self, g, site, data, *room):
        group = self.group(g)
        return text(group.scheme.sign(number(site), unhex(data), self.room(room)))

    def do_check(self, g, site, data, signature):
        group = self.group(g)
        return "yes" if group.scheme.check(number(site), unhex(data), unhex(signature)) else "no"

    def do_slot(self, g, kind, site):
        group = self.group(g)
        if kind not in ("value", "version"):
            raise Unknown
        return text(group.store.read(kind, number(site)))


def main():
    console = Console()
    for line in sys.stdin:
        print(console.answer(line.rstrip("\n")))


if __name__ == "__main__":
    main()
