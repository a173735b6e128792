#!/usr/bin/env python3
"""Writes arrivals.bin, beside this file: a small campaign in the framing that dome reads.

An arrival is the block's length in two bytes, high byte first, and then the block (docs/FORMATS.md).
"""

from pathlib import Path

from campaign import MAX_BLOCK_BYTES, block, digest, dome_arrival as arrival


def arrivals():
    """The arrivals in their order."""
    # The chain: site 0 requests amendment 7 in slot 0, then refers to its block before, three times.
    first = block(0, 0, requests=[(0, 7)])
    second = block(0, 1, references=[digest(first)])
    third = block(0, 2, references=[digest(second)])
    fourth = block(0, 3, references=[digest(third)])
    yield from map(arrival, [first, second, third, fourth])

    # The reader has no memory: a block that arrives again is read again.
    yield arrival(first)

    # Refusal 3: the second block without its last byte, so that its length isn't what its counts give.
    yield arrival(second[:-1])
    # Refusal 6 with index 2: the third request has number 0. The fourth, for slot 8, comes too late to count.
    yield arrival(block(0, 4, references=[digest(fourth)], requests=[(0, 7), (1, 42), (2, 0), (8, 43)]))
    # Refusal 18 with index 2: the third request is for the slot of the first.
    yield arrival(block(0, 4, references=[digest(fourth)], requests=[(3, 7), (1, 42), (3, 8)]))
    # Refusal 7 with index 2: the third reference is the first once more.
    yield arrival(block(0, 4, references=[digest(fourth), digest(third), digest(fourth)]))

    # Refusal 3: one byte longer than the longest block. Its bytes are skipped, and the next arrival is read.
    yield arrival(bytes(MAX_BLOCK_BYTES + 1))
    yield arrival(block(0, 4, references=[digest(fourth)], requests=[(3, 65535)]))

    # Refusal 3: the input ends after the first six of its 37 bytes.
    yield arrival(second)[:2 + 6]


if __name__ == "__main__":
    Path(__file__).with_name("arrivals.bin").write_bytes(b"".join(arrivals()))
