"""Streams of arrivals for the listing program: seeded, so that every run has the same bytes."""

import random
import sys
from pathlib import Path
from typing import NamedTuple

# The examples have blocks and arrivals as bytes.
sys.path.append(str(Path(__file__).resolve().parents[1] / "examples"))
from campaign import HEADER_BYTES, MAX_BLOCK_BYTES, MAX_REFERENCES, MAX_REQUESTS, REFERENCE_BYTES, arrival, block as encode, digest

ARRIVALS = 10000
PLACES = 64
SITES = 7
OWNERS = [slot % SITES for slot in range(8)]
SETUP = bytes([SITES, *OWNERS])


class Held(NamedTuple):
    """A block that the table holds."""
    data: bytes
    digest: bytes
    site: int
    sequence: int


# ---- Blocks

def some_requests(rng, site):
    """Mostly none or one of the site's own slot; now and then as many as fit, of different slots."""
    count = rng.choices([0, 1, 2, 3, MAX_REQUESTS], weights=[60, 25, 8, 5, 2])[0]
    others = [slot for slot in range(8) if slot != site]
    slots = [site, *rng.sample(others, len(others))]
    return [(slot, rng.randint(1, 65535)) for slot in slots[:count]]


def some_references(rng, held, parent):
    """The parent, and of others one or two new blocks, the newest of each site, or as many new ones as fit."""
    newest = {block.site: block for block in held}.values()
    pool, count = rng.choices([(newest, 2), (newest, SITES), (held[-2 * SITES:], MAX_REFERENCES)], weights=[25, 60, 15])[0]
    others = [block.digest for block in pool if block is not parent]
    own = [parent.digest] if parent else []
    references = own + rng.sample(others, min(len(others), count - len(own)))
    rng.shuffle(references)
    return references


def newest_of(held, site):
    return next((block for block in reversed(held) if block.site == site), None)


def next_block(rng, held, site):
    """A block that a table with room takes: the site's next."""
    parent = newest_of(held, site)
    sequence = parent.sequence + 1 if parent else 0
    return encode(site, sequence, some_references(rng, held, parent), some_requests(rng, site))


def anyones_block(rng, held):
    return next_block(rng, held, rng.randrange(SITES))


def hold(held, data):
    held.append(Held(data, digest(data), data[0], int.from_bytes(data[1:3], "big")))


# ---- Arrivals

def repeated(rng, held):
    """8: a block that came before."""
    return arrival(rng.choice(held).data)


def unknown(rng, held):
    """9: a block that refers to one which never came."""
    data = bytearray(anyones_block(rng, held))
    if data[3] > 0:
        at = HEADER_BYTES + REFERENCE_BYTES * rng.randrange(data[3])
        data[at:at + REFERENCE_BYTES] = rng.randbytes(REFERENCE_BYTES)
    return arrival(bytes(data))


def unsigned(rng, held):
    """5"""
    return arrival(anyones_block(rng, held), verdict=0)


def cut_off(rng, held):
    """3: bytes that were lost."""
    data = anyones_block(rng, held)
    return arrival(data[:rng.randrange(len(data))])


def over_long(rng, _held):
    """3: longer than a block can be."""
    return arrival(rng.randbytes(rng.randint(MAX_BLOCK_BYTES + 1, 2 * MAX_BLOCK_BYTES)))


def foreign(rng, held):
    """4: of no site of this campaign."""
    return arrival(bytes([rng.randint(SITES, 255)]) + anyones_block(rng, held)[1:])


def bad_request(rng, _held):
    """6"""
    return arrival(encode(rng.randrange(SITES), 0, [], [(0, 7), (rng.randint(8, 255), 1)]))


def repeated_slot(rng, _held):
    """18: the same one twice."""
    slot = rng.randrange(8)
    return arrival(encode(rng.randrange(SITES), 0, [], [(slot, 7), (slot, 8)]))


def bad_reference(rng, held):
    """7: the same one twice."""
    return arrival(encode(rng.randrange(SITES), 1, 2 * [rng.choice(held).digest], []))


def orphan(rng, held):
    """10: without its parent."""
    return arrival(encode(rng.randrange(SITES), 60000, [rng.choice(held).digest], []))


# Damage of every kind, none of it frequent.
DAMAGED = [unsigned, cut_off, over_long, foreign, bad_request, repeated_slot, bad_reference, orphan]


def damaged(rng, held):
    return rng.choice(DAMAGED)(rng, held)


def one_too_many(rng, held):
    """11: a block that a table with room would take. One without references may come before anything is held."""
    return arrival(anyones_block(rng, held))


# ---- Streams

def stream(seed, is_new, others, arrivals=ARRIVALS):
    """So many arrivals, of which those where `is_new` says so are taken, of one site after the other, until 64 are; the rest
    are drawn from `others` by weight."""
    rng = random.Random(seed)
    held, parts = [], [SETUP]
    for number in range(arrivals):
        if len(held) < PLACES and (not held or is_new(number)):
            data = next_block(rng, held, len(held) % SITES)
            hold(held, data)
            parts.append(arrival(data))
        else:
            make = rng.choices(list(others), weights=others.values())[0]
            parts.append(make(rng, held))
    return b"".join(parts)


def soon_full():
    """A table that is full after 64 arrivals, and sites that go on."""
    return stream(1, lambda number: True, {one_too_many: 65, repeated: 15, unknown: 12, damaged: 8})


def slowly_filled():
    """A table that fills evenly over the whole stream, with repetitions and damage between."""
    return stream(2, lambda number: number % (ARRIVALS // PLACES) == 0, {repeated: 70, unknown: 15, damaged: 15})


def flooded(refused):
    """A full table, and then so many arrivals, a multiple of ten, that get 11. They are short, and ten come over and over, so
    that a million take little room and are quickly made."""
    full = stream(3, lambda number: True, {}, PLACES)
    ten = b"".join(arrival(encode(0, 0, [], [(0, number)])) for number in range(1, 11))
    return full + refused // 10 * ten


def no_arrivals():
    """A setup and nothing else: what starting and ending a program takes."""
    return SETUP
