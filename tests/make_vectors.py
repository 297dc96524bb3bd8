#!/usr/bin/env python3
"""Writes crates/vectors/stdin and crates/vectors/stdout.

The questions are the published examples of SHA-256 and SHA3-256 and messages of every length around the ends of blocks,
whole, repeated, in two parts and after a first block, then RFC 4231's examples of HMAC-SHA-256 and keys and texts of such
lengths. The answers come from Python's hashlib and hmac, and the published ones are checked against them. The script has a generator of its own with a fixed seed, so it always writes the same two files.
"""

import hashlib
import hmac
import pathlib

HASHES = {"sha256": hashlib.sha256, "sha3-256": hashlib.sha3_256}

TWO_BLOCKS = b"abcdbcdecdefdefgefghfghighijhijkijkljklmklmnlmnomnopnopq"
LONGER = b"abcdefghbcdefghicdefghijdefghijkefghijklfghijklmghijklmnhijklmnoijklmnopjklmnopqklmnopqrlmnopqrsmnopqrstnopqrstu"

# NIST, "Examples with intermediate values", for SHA-256 and SHA3-256.
PUBLISHED = [
    ("no bytes", b"", 1, "e3b0c44298fc1c149afbf4c8996fb92427ae41e4649b934ca495991b7852b855",
     "a7ffc6f8bf1ed76651c14756a061d662f580ff4de43b49fa82d80a4b80f8434a"),
    ("abc", b"abc", 1, "ba7816bf8f01cfea414140de5dae2223b00361a396177a9cb410ff61f20015ad",
     "3a985da74fe225b2045c172d6bd390bd855f086e3e9d525b46bfe24511431532"),
    ("448 bits", TWO_BLOCKS, 1, "248d6a61d20638b8e5c026930c3e6039a33ce45964ff2167f6ecedd419db06c1",
     "41c0dba2a9d6240849100376a8235e2c82e1b9998a999e21db32dd97496d3376"),
    ("896 bits", LONGER, 1, "cf5b16a778af8380036ce59e7b0492370b249b11e8f07a51afac45037afee9d1",
     "916f6061fe879741ca6469b43971dfdb28b1a32dc36cb3254e812be27aad1d18"),
    ("one million times the letter a", b"a", 1000000, "cdc76e5c9914fb9281a1c7e284d73e67f1809a48a497200e046d39ccc7112cd0",
     "5c8875ae474a3634ba4fd55ec85bffd661f32aca75c6d699d0cdcb6c115891c1"),
]

# Around the ends of blocks of 64 and of 136 bytes, and where the padding needs a block more.
LENGTHS = [
    *range(0, 10), *range(54, 67), *range(110, 131), *range(134, 139), *range(182, 187), *range(190, 195), *range(246, 251),
    *range(254, 259), *range(270, 275), *range(310, 322), *range(405, 411), *range(500, 515), *range(541, 547), *range(1022, 1026),
    *range(1086, 1090),
]

PARTS = [0, 1, 55, 63, 64, 65, 135, 136, 137, 200]
PIECES = [1, 3, 7, 17, 63, 64, 65, 68, 135, 136, 137, 300]
COUNTS = [0, 1, 2, 5, 19]
AFTER_A_BLOCK = [*range(0, 4), *range(53, 67), *range(118, 130), 192, 200, 500]

UNKNOWN = [
    "hello", "sha256", "sha256 ", "sha3-256", "sha512 00", "SHA256 00", "sha256 0", "sha256 0g", "sha256 AB", "sha256  00", "sha256 00 ",
    "sha256 00 00", " sha256 00", "sha256 *00", "sha256 x*00", "sha256 3*", "sha256 3*0", "sha256 -1*00", "sha256 18446744073709551616*00",
    "sha256 2*2*00", "sha256-pair 00", "sha256-pair 00 00 00", "sha3-256-pair . 0", "sha256-midstate 00 00", "sha256-midstate . 00",
    "sha256-midstate " + "00" * 63 + " 00", "sha256-midstate " + "00" * 65 + " 00", "sha256-midstate " + "00" * 128 + " 00",
    "hmac-sha256 00", "hmac-sha256 00 0", "hmac-sha256 00 00 00", "hmac . .", "sha256-midstate " + "00" * 64, "sha3-256-midstate " + "00" * 64 + " 00",
]


class Bytes:
    """A linear congruential generator (Knuth's MMIX constants), of which the highest byte is taken."""

    def __init__(self, seed):
        self.state = seed

    def take(self, count):
        taken = bytearray()
        for _ in range(count):
            self.state = (self.state * 6364136223846793005 + 1442695040888963407) % 2**64
            taken.append(self.state >> 56)
        return bytes(taken)


def text(message):
    return message.hex() or "."


def published():
    yield "# published examples", "# published examples"
    for name, message, count, sha256, sha3_256 in PUBLISHED:
        yield "# " + name, "# " + name
        for hash_name, value in (("sha256", sha256), ("sha3-256", sha3_256)):
            assert HASHES[hash_name](message * count).hexdigest() == value
            yield f"{hash_name} {text(message)}" if count == 1 else f"{hash_name} {count}*{text(message)}", value
    yield "", ""


def generated(source):
    for name, digest in HASHES.items():
        yield "# whole messages", "# whole messages"
        for length in LENGTHS:
            message = source.take(length)
            yield f"{name} {text(message)}", digest(message).hexdigest()
        yield "# in equal pieces", "# in equal pieces"
        for length in PIECES:
            for count in COUNTS:
                piece = source.take(length)
                yield f"{name} {count}*{text(piece)}", digest(piece * count).hexdigest()
        yield f"{name} 1000*{text(b'a' * 1000)}", digest(b"a" * 1000000).hexdigest()
        yield "# in two parts", "# in two parts"
        for first in PARTS:
            for second in PARTS:
                front, back = source.take(first), source.take(second)
                yield f"{name}-pair {text(front)} {text(back)}", digest(front + back).hexdigest()
        yield "", ""
    yield "# after a first block", "# after a first block"
    for length in AFTER_A_BLOCK:
        block, rest = source.take(64), source.take(length)
        yield f"sha256-midstate {text(block)} {text(rest)}", hashlib.sha256(block + rest).hexdigest()


# RFC 4231, test cases 1 to 4, 6 and 7: key, text, and the keyed hash. (Case 5 has its hash cut short.)
LONG_KEY = b"\xaa" * 131
RFC_4231 = [
    (b"\x0b" * 20, b"Hi There", "b0344c61d8db38535ca8afceaf0bf12b881dc200c9833da726e9376c2e32cff7"),
    (b"Jefe", b"what do ya want for nothing?", "5bdcc146bf60754e6a042426089575c75a003f089d2739839dec58b964ec3843"),
    (b"\xaa" * 20, b"\xdd" * 50, "773ea91e36800e46854db8ebd09181a72959098b3ef8c122d9635514ced565fe"),
    (bytes(range(1, 26)), b"\xcd" * 50, "82558a389a443c0ea4cc819899f2083a85f0faa3e578f8077a2e3ff46729665b"),
    (LONG_KEY, b"Test Using Larger Than Block-Size Key - Hash Key First",
     "60e431591ee0b67f0d8a26aacbf5b77f8e0bc6213728c5140546040f0ee37f54"),
    (LONG_KEY, b"This is a test using a larger than block-size key and a larger than block-size data. "
     b"The key needs to be hashed before being used by the HMAC algorithm.",
     "9b09ffa71b942fcb27635fbcd5b0e944bfdc63644f0713938a7f51535c3a35e2"),
]

KEYS = [0, 1, 16, 20, 31, 32, 33, 48, 63, 64, 65, 66, 96, 127, 128, 129, 200, 255]
TEXTS = [0, 1, 2, 31, 32, 54, 55, 56, 57, 63, 64, 65, 118, 119, 120, 121, 127, 128, 129, 319, 320, 321]


def keyed(source):
    yield "# keyed hashes: published examples", "# keyed hashes: published examples"
    for key, message, value in RFC_4231:
        assert hmac.new(key, message, hashlib.sha256).hexdigest() == value
        yield f"hmac-sha256 {text(key)} {text(message)}", value
    yield "# keys and texts around the ends of blocks", "# keys and texts around the ends of blocks"
    for key_length in KEYS:
        for text_length in TEXTS:
            key, message = source.take(key_length), source.take(text_length)
            yield f"hmac-sha256 {text(key)} {text(message)}", hmac.new(key, message, hashlib.sha256).hexdigest()


def unknown():
    yield "# what cannot be understood", "# what cannot be understood"
    for line in UNKNOWN:
        yield line, "unknown"


def main():
    folder = pathlib.Path(__file__).resolve().parent.parent / "crates" / "vectors"
    lines = [*published(), *generated(Bytes(20150805)), *keyed(Bytes(4231)), *unknown()]
    (folder / "stdin").write_text("".join(question + "\n" for question, _ in lines))
    (folder / "stdout").write_text("".join(answer + "\n" for _, answer in lines))
    print(f"{len(lines)} lines")


main()
