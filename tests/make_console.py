#!/usr/bin/env python3
"""Writes crates/console/stdin and stdout: a long script for the program `console`, answered by tests/second_program.py.

The script plays honest sessions and hosts that lie, on groups of 1, 2, 3 and 8 sites over both schemes, both digests, the table and
the wear allowance, and reaches every refusal 1 to 11 (but 5, which takes four billion operations) and every stop 21 to 29.
"""
import collections
import os
import random

import second_program as second

random.seed(20)
console = second.Console()
lines, answers = [], []


def say(line):
    lines.append(line)
    answers.append(console.answer(line))
    return answers[-1].split(" ")


def note(words):
    say("# " + words)


def data(word):
    return second.unhex(word)


KEYS = bytes((7 * k + 3) % 256 for k in range(256))


class Play:
    """one group of the console"""

    def __init__(self, g, n, scheme, digest, store):
        self.g, self.n = g, n
        self.word = {"hmac": "hmac:" + KEYS.hex(), "ledger": "ledger"}[scheme]
        say("start %d %d %s %s %s" % (g, n, self.word, digest, store))
        self.size = {"hmac": 32, "ledger": 8}[scheme]

    def read(self, site, register, *room):
        return data(say("read %d %d %d%s" % (self.g, site, register, "".join(" %d" % r for r in room)))[2])

    def write(self, site, value):
        return data(say("write %d %d %s" % (self.g, site, second.text(value)))[2])

    def submit(self, message):
        return data(say("submit %d %s" % (self.g, second.text(message)))[1])

    def finish(self, site, reply):
        return say("finish %d %d %s" % (self.g, site, second.text(reply)))

    def commit(self, message):
        return say("commit %d %s" % (self.g, second.text(message)))

    def whole(self, site, message):
        """an operation to its end, as our host serves it"""
        words = self.finish(site, self.submit(message))
        self.commit(data(words[1]))
        return words

    def reply(self, message):
        return second.read_reply(self.n, self.size, message)

    def look(self, site):
        say("version %d %d" % (self.g, site))
        say("state %d %d" % (self.g, site))
        say("left %d %d" % (self.g, site))


def honest(play):
    """operations that overlap, one after the other in changing order"""
    n, late = play.n, []
    for site in range(1, n + 1):
        play.whole(site, play.write(site, bytes([site]) * (3 * site)))
    for turn in range(3):
        begun, replies = [], {}
        for site in random.sample(range(1, n + 1), n):
            value = bytes(random.randrange(256) for _ in range(random.choice([0, 1, 40])))
            begun.append((site, play.write(site, value) if (site + turn) % 2 else play.read(site, random.randint(1, n))))
        for site, message in begun:
            replies[site] = play.submit(message)
        for site in random.sample(sorted(replies), n):
            words = play.finish(site, replies[site])
            if random.random() < 0.8:
                play.commit(data(words[1]))
                play.commit(data(words[1]))
            else:
                late.append(data(words[1]))
        while late:
            play.commit(late.pop())
    for site in range(1, n + 1):
        play.look(site)
        say("slot %d value %d" % (play.g, site))
        say("slot %d version %d" % (play.g, site))
    say("rewrites %d" % play.g)


def flipped(part):
    return bytes([part[0] ^ 1]) + part[1:]


def lies(g, scheme, digest, store):
    """each stop, on a fresh group of three sites: sites 1 and 2 have finished, site 3 reads or writes"""

    def fresh():
        play = Play(g, 3, scheme, digest, store)
        play.commits = {}
        for site in (1, 2, 1):
            play.commits[site] = data(play.whole(site, play.write(site, b"table"))[1])
        return play

    def lie(stop, change, site=3, ask=lambda p: p.read(3, 1), overlap=True):
        play = fresh()
        if overlap:
            play.submit(play.read(2, 2))
        reply = play.reply(play.submit(ask(play)))
        change(play, reply)
        words = play.finish(site, second.reply_bytes(reply))
        assert words == ["stopped", str(stop)], (stop, words)
        play.look(site)
        say("read %d %d 1" % (g, site))
        say("finish %d %d 02" % (g, site))

    def entry(reply, k, **parts):
        site, code, register, signature = reply["entries"][k]
        reply["entries"][k] = (parts.get("site", site), parts.get("code", code), parts.get("register", register), parts.get("signature", signature))

    def old_version(p):
        m = second.read_commit(3, p.size, p.commits[2])
        return dict(committer=2, version=m["version"], signature=m["signature"], entries=[])

    note("stops, %s %s %s" % (scheme, digest, store))
    lie(21, lambda p, a: a.update(signature=flipped(a["signature"])))
    lie(21, lambda p, a: a.update(committer=3))
    lie(22, lambda p, a: a.update(version=second.zero(3), entries=[]), site=1, ask=lambda p: p.read(1, 2))
    lie(22, lambda p, a: a.update(old_version(p)), site=1, ask=lambda p: p.write(1, b""))

    lie(23, lambda p, a: a["proofs"].__setitem__(1, flipped(a["proofs"][1])))
    lie(24, lambda p, a: a["entries"].append((3, 1, 1, bytes(p.size))))
    lie(25, lambda p, a: entry(a, 0, signature=flipped(a["entries"][0][3])))
    lie(25, lambda p, a: entry(a, 0, register=1))
    lie(26, lambda p, a: a["found"].update(signature=flipped(a["found"]["signature"])))
    lie(27, lambda p, a: a["found"].update(data=flipped(a["found"]["data"])))
    lie(27, lambda p, a: a["found"].update(value=b"other"))
    lie(27, lambda p, a: a["found"].update(stamp=0))

    def behind(p, a):
        """the committed version is older than the owner's"""
        a.update(old_version(p))

    lie(28, behind, overlap=False)

    def old_value(p, a):
        """the owner's value before its last one"""
        a["found"].update(stamp=1, data=p.first_data, value=b"table")

    def lie_old_value():
        play = Play(g, 3, scheme, digest, store)
        message = play.write(1, b"table")
        play.first_data = second.read_submit(3, play.size, message)["data"]
        play.whole(1, message)
        play.whole(1, play.write(1, b"newer"))
        reply = play.reply(play.submit(play.read(3, 1)))
        old_value(play, reply)
        assert play.finish(3, second.reply_bytes(reply)) == ["stopped", "28"]

    lie_old_value()

    def lie_old_version():
        """the owner's version two operations before its value"""
        play = Play(g, 3, scheme, digest, store)
        first = data(play.whole(1, play.write(1, b"a"))[1])
        play.whole(1, play.write(1, b"b"))
        play.whole(1, play.write(1, b"c"))
        reply = play.reply(play.submit(play.read(2, 1)))
        m = second.read_commit(3, play.size, first)
        reply["found"].update(version=m["version"], signature=m["signature"])
        assert play.finish(2, second.reply_bytes(reply)) == ["stopped", "29"]
        play.look(2)

    lie_old_version()


def refusals(g, n, scheme, digest):
    note("refusals of a group of %d, %s %s" % (n, scheme, digest))
    play = Play(g, n, scheme, digest, "wear:%d" % (6 + n))
    size = play.size
    say("read %d 1 0" % g)
    say("read %d 1 %d" % (g, n + 1))
    say("read %d 1 300" % g)
    say("write %d 1 %s" % (g, "ab" * 513))
    say("write %d 1 %s %d" % (g, "ab" * 512, 2 * size + 521))
    say("write %d 1 %s %d" % (g, "ab" * 512, 2 * size + 522))
    say("write %d 1 00" % g)
    say("read %d 1 1" % g)
    message = data(answers[-3].split(" ")[2])
    say("finish %d 1 ." % g)
    say("finish %d 1 02" % g)
    say("finish %d 1 0203" % g)
    for cut in list(range(0, 12)) + [8 + size, 8 + size + 2, len(message) - 1]:
        say("submit %d %s" % (g, second.text(message[:cut])))
    say("submit %d %s00" % (g, message.hex()))
    for place in (0, 1, 2, 3, 4, 8 + size):
        say("submit %d %s" % (g, (message[:place] + bytes([message[place] ^ 8]) + message[place + 1:]).hex()))
    say("submit %d %s 40" % (g, message.hex()))
    reply = play.submit(message)
    say("submit %d %s" % (g, message.hex()))
    for cut in (1, 2, 3, 7, 38, 40, 3 + 36 * n, 3 + 36 * n + size, len(reply) - 1):
        say("finish %d 1 %s" % (g, reply[:cut].hex()))
    say("finish %d 1 %s00" % (g, reply.hex()))
    for place in (0, 1, 2, 8, 3 + 36 * n + size):
        say("finish %d 1 %s" % (g, (reply[:place] + bytes([reply[place] ^ 16]) + reply[place + 1:]).hex()))
    say("finish %d 1 %s" % (g, (reply[:1] + b"\x01" + reply[2:]).hex()))
    say("finish %d 1 %s %d" % (g, reply.hex(), 2 + 36 * n + 2 * size - 1))
    words = say("finish %d 1 %s %d" % (g, reply.hex(), 2 + 36 * n + 2 * size))
    commit = data(words[1])
    say("finish %d 1 %s" % (g, reply.hex()))
    say("abandon %d 1" % g)
    for cut in (0, 1, 2, 6, 38, 2 + 36 * n, len(commit) - 1):
        say("commit %d %s" % (g, second.text(commit[:cut])))
    say("commit %d %s00" % (g, commit.hex()))
    play.commit(commit)
    play.commit(commit)
    if n > 1:
        note("a nonzero digest byte at timestamp 0")
        bad = commit[:42] + b"\x01" + commit[43:]
        play.commit(bad)
    note("every site waits")
    for site in range(1, n + 1):
        play.submit(play.read(site, n))
        say("slot %d value %d" % (g, site))
    say("rewrites %d" % g)
    note("a site that gave up")
    say("abandon %d 1" % g)
    say("abandon %d 1" % g)
    say("state %d 1" % g)
    say("write %d 1 00" % g)
    say("read %d 1 1" % g)


def worn(g):
    note("the store has no rewrite left")
    play = Play(g, 2, "hmac", "sha256", "wear:1")
    words = play.finish(1, play.submit(play.write(1, b"x")))
    play.commit(data(words[1]))
    message = play.write(2, b"y")
    say("submit %d %s" % (g, message.hex()))
    say("submit %d %s 10" % (g, message.hex()))
    say("rewrites %d" % g)
    say("slot %d value 1" % g)
    say("slot %d version 1" % g)
    play = Play(g, 1, "ledger", "sha3-256", "wear:0")
    say("submit %d %s" % (g, play.write(1, b"x").hex()))


def full(g):
    note("an entry for each site")
    play = Play(g, 2, "ledger", "sha256", "table")
    first = play.submit(play.write(1, b"1"))
    second_reply = play.submit(play.write(2, b"2"))
    done1 = data(play.finish(1, first)[1])
    done2 = data(play.finish(2, second_reply)[1])
    play.commit(done1)
    again = play.write(1, b"3")
    play.submit(again)
    more = play.write(2, b"4")
    say("submit %d %s" % (g, more.hex()))
    play.commit(done2)
    play.submit(more)
    note("a commit that leads clears the list")
    play = Play(g, 2, "hmac", "sha3-256", "table")
    first = play.submit(play.write(1, b"1"))
    other = play.submit(play.write(2, b"2"))
    done1 = data(play.finish(1, first)[1])
    play.commit(done1)
    play.submit(play.read(1, 2))
    done2 = data(play.finish(2, other)[1])
    play.commit(done2)
    say("slot %d version 2" % g)
    overfull(g)


def overfull(g):
    """a commit that was tampered with does not lead, so its site's entry stays while the site submits again: the list is full"""
    play = Play(g, 2, "ledger", "sha256", "table")
    one = play.submit(play.write(1, b"1"))
    two = play.submit(play.write(2, b"2"))
    done2 = data(play.finish(2, two)[1])
    done1 = data(play.finish(1, one)[1])
    play.commit(done2)
    play.commit(done1)
    a = play.submit(play.write(1, b"3"))
    b = play.submit(play.write(2, b"4"))
    done = data(play.finish(1, a)[1])
    lost = second.read_commit(2, play.size, done)
    lost["version"] = (lost["version"][0], (0, None))
    play.commit(second.commit_bytes(lost))
    say("submit %d %s" % (g, play.write(1, b"5").hex()))


def signatures(g):
    note("signatures run out")
    play = Play(g, 2, "ledger", "sha256", "table")
    for turn in range(4):
        play.whole(1, play.write(1, bytes([turn])))
    say("left %d 1" % g)
    say("write %d 1 00" % g)
    say("read %d 1 2" % g)
    message = play.write(2, b"z")
    for _ in range(13):
        say("sign %d 2 %s" % (g, "aa" * 3))
    say("left %d 2" % g)
    reply = play.submit(message)
    say("finish %d 2 %s" % (g, reply.hex()))
    say("finish %d 2 ." % g)
    say("state %d 2" % g)
    say("abandon %d 2" % g)
    note("signing and checking")
    for site in (0, 1, 8, 9, 300):
        words = say("sign %d %d 616263" % (g, site))
        if words[0] not in ("refused", "unknown"):
            say("check %d %d 616263 %s" % (g, site, words[0]))
            say("check %d %d 616264 %s" % (g, site, words[0]))
            say("check %d %d 616263 %s" % (g, site % 8 + 1, words[0]))
        say("check %d %d 616263 %s" % (g, site, "00" * 8))
    say("sign %d 3 %s" % (g, "00" * 320))
    say("sign %d 3 %s" % (g, "00" * 321))
    say("sign %d 3 00 7" % g)
    say("sign %d 3 00 8" % g)
    play = Play(g, 1, "hmac", "sha256", "table")
    for room in (31, 32, 33):
        say("sign %d 1 00 %d" % (g, room))
    say("left %d 8" % g)
    say("left %d 9" % g)
    for kind in ("value", "version"):
        for site in (0, 1, 8, 9):
            say("slot %d %s %d" % (g, kind, site))


def lines_of_all_kinds():
    note("lines that are not understood")
    for line in ("start", "start 0 1 ledger sha256 table", "start 5 1 ledger sha256 table", "start 1 0 ledger sha256 table",
                 "start 1 9 ledger sha256 table", "start 1 300 ledger sha256 table", "start 1 8 ledger sha256 table", "start 1 2 hmac:00 sha256 table",
                 "start 1 2 ledger md5 table", "start 1 2 ledger sha256 disk", "start 1 2 ledger sha256 wear:", "start 1 2 ledger sha256 wear:4294967296",
                 "start 1 2 ledger sha256 table more", "start 1 2 ledger sha256 wear:4294967295", "rewrites 1", "rewrites 2", "read 3 1 1", "read 1 3 1",
                 "read 1 0 1", "read 1 x 1", "read 1 1 1 4097", "read 1 1 1 4096 1", "read 1  1 1", "write 1 1 0", "write 1 1 AB", "write 1 1", "finish 1 1 00",
                 "abandon 1 1", "state 1 3", "version 1 9", "state 1 1", "version 1 1", "left 1 0", "check 1 9 00 00", "slot 1 key 1", "slot 1 value 9",
                 "bogus", "read", "digest md5 00", "digest sha256 .", "digest sha3-256 .", "digest sha256 616263", "hmac %s 616263" % KEYS[:32].hex(),
                 "hmac 00 616263", "", "# a note", "compare 1 00 1 00", "compare 0 . 1 .", "compare 9 . 1 ."):
        say(line)
    zero1, one = "00" * 36, "00000001" + "11" * 32
    for left, right in ((zero1, zero1), (zero1, one), (one, zero1), (one, "00000001" + "22" * 32), (one, "00000001" + "00" * 32)):
        say("compare 1 %s 1 %s" % (left, right))
    say("compare 1 %s 2 %s" % (zero1, zero1 * 2))
    say("compare 2 %s 2 %s" % (one + zero1, one + one))
    say("compare 2 %s 2 %s" % ("00000002" + "11" * 32 + zero1, one + one))
    say("compare 1 %s 1 %s" % ("00000000" + "01" * 32, zero1))


def main():
    lines_of_all_kinds()
    for g, (n, scheme, digest, store) in enumerate([
            (1, "ledger", "sha256", "table"), (2, "hmac", "sha3-256", "wear:100000"), (3, "hmac", "sha256", "table"), (8, "hmac", "sha3-256", "table")]):
        note("our host, %d sites, %s %s %s" % (n, scheme, digest, store))
        honest(Play(g + 1, n, scheme, digest, store))
    note("again with the other parts")
    honest(Play(2, 8, "hmac", "sha256", "wear:100000"))
    honest(Play(3, 2, "hmac", "sha256", "table"))
    for scheme in ("hmac", "ledger"):
        for digest, store in (("sha256", "table"), ("sha3-256", "wear:1000")):
            lies(4, scheme, digest, store)
    for n, scheme, digest in ((1, "hmac", "sha256"), (2, "hmac", "sha3-256"), (2, "ledger", "sha256"), (3, "ledger", "sha3-256"), (8, "hmac", "sha256")):
        refusals(1, n, scheme, digest)
    worn(2)
    full(3)
    signatures(4)
    folder = os.path.join(os.path.dirname(os.path.abspath(__file__)), "..", "crates", "console")
    os.makedirs(folder, exist_ok=True)
    for name, rows in (("stdin", lines), ("stdout", answers)):
        with open(os.path.join(folder, name), "w") as out:
            out.write("".join(row + "\n" for row in rows))
    counts = collections.Counter(" ".join(a.split(" ")[:2]) for a in answers if a.split(" ")[0] in ("refused", "stopped") and a != "stopped")
    for key in sorted(counts, key=lambda k: int(k.split(" ")[1])):
        print(key, counts[key])
    print(len(lines), "lines")


if __name__ == "__main__":
    main()
