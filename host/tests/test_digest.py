"""gt_digest on the standard's published vectors, and against Python's hashlib."""

import hashlib
import random

from programs import digests, expect

# Sources:
#   FIPS 180-2   appendix B, SHA-256 examples: B.1, B.2, B.3
#   CAVP         NIST Cryptographic Algorithm Validation Program, SHA256ShortMsg
#   additional   NIST CSRC, additional SHA-2 examples; they end just before, at and after the padding's edges
# The 896-bit message is FIPS 180-2's for SHA-384 and SHA-512; no page there has its SHA-256, which is the value that
# other implementations give.
VECTORS = [
    ("CAVP, Len = 0", b"",
     "e3b0c44298fc1c149afbf4c8996fb92427ae41e4649b934ca495991b7852b855"),
    ("CAVP, Len = 8", b"\xd3",
     "28969cdfa74a12c82f3bad960b0b000aca2ac329deea5c2328ebc6f2ba9802c1"),
    ("FIPS 180-2, B.1: 'abc'", b"abc",
     "ba7816bf8f01cfea414140de5dae2223b00361a396177a9cb410ff61f20015ad"),
    ("FIPS 180-2, B.2: 448 bits", b"abcdbcdecdefdefgefghfghighijhijkijkljklmklmnlmnomnopnopq",
     "248d6a61d20638b8e5c026930c3e6039a33ce45964ff2167f6ecedd419db06c1"),
    ("FIPS 180-2, B.3: one million 'a'", b"a" * 1_000_000,
     "cdc76e5c9914fb9281a1c7e284d73e67f1809a48a497200e046d39ccc7112cd0"),
    ("896 bits", b"abcdefghbcdefghicdefghijdefghijkefghijklfghijklmghijklmnhijklmno"
                 b"ijklmnopjklmnopqklmnopqrlmnopqrsmnopqrstnopqrstu",
     "cf5b16a778af8380036ce59e7b0492370b249b11e8f07a51afac45037afee9d1"),
    ("additional: 1 byte bd", b"\xbd",
     "68325720aabd7c82f30f554b313d0570c95accbb7dc4b5aae11204c08ffe732b"),
    ("additional: 55 zeros", bytes(55),
     "02779466cdec163811d078815c633f21901413081449002f24aa3e80f0b88ef7"),
    ("additional: 56 zeros", bytes(56),
     "d4817aa5497628e7c77e6b606107042bbba3130888c5f47a375e6179be789fbb"),
    ("additional: 57 zeros", bytes(57),
     "65a16cb7861335d5ace3c60718b5052e44660726da4cd13bb745381b235a1785"),
    ("additional: 64 zeros", bytes(64),
     "f5a5fd42d16a20302798ef6ed309979b43003d2320d9f0e8ea9831a92759fb4b"),
]


def test_published_vectors():
    got = digests([message for _, message, _ in VECTORS])
    expect(len(got) == len(VECTORS), f"{len(got)} digests for {len(VECTORS)} messages")
    for (name, _, wanted), digest in zip(VECTORS, got):
        expect(digest == wanted, f"{name}: {digest}, wanted {wanted}")


def test_lengths_to_1100():
    rng = random.Random(180)
    messages = [rng.randbytes(length) for length in range(1101)]
    got = digests(messages)
    expect(len(got) == len(messages), f"{len(got)} digests for {len(messages)} messages")
    for message, digest in zip(messages, got):
        wanted = hashlib.sha256(message).hexdigest()
        expect(digest == wanted, f"{len(message)} bytes: {digest}, wanted {wanted}")
