"""Seeded blocks, lawful and damaged. Every function takes its generator, so that a run can be repeated."""

from campaign import (HEADER_BYTES, MAX_BLOCK_BYTES, MAX_REFERENCES, MAX_REQUESTS, REFERENCE_BYTES, REQUEST_BYTES, block,
                      dome_arrival as arrival)


# ---- Lawful blocks

def some_count(rng, most):
    """0, 1 and the most often, since mistakes lie there."""
    return rng.choice([0, 1, most, rng.randint(0, most), rng.randint(0, most)])


def flipped(rng, data):
    """The bytes with one bit changed."""
    at = rng.randrange(8 * len(data))
    return bytes(byte ^ (1 << at % 8 if i == at // 8 else 0) for i, byte in enumerate(data))


def different_references(rng, count):
    """References of which many differ from an earlier one in a single bit."""
    references = []
    while len(references) < count:
        near = references and rng.random() < 0.4
        reference = flipped(rng, rng.choice(references)) if near else rng.randbytes(REFERENCE_BYTES)
        if reference not in references:
            references.append(reference)
    return references


def lawful(rng, references=None, requests=None):
    """A block that reads; counts are random where they aren't given."""
    references = some_count(rng, MAX_REFERENCES) if references is None else references
    requests = some_count(rng, MAX_REQUESTS) if requests is None else requests
    numbers = [(slot, rng.choice([1, 255, 256, 65535, rng.randint(1, 65535)])) for slot in rng.sample(range(8), requests)]
    return block(rng.randrange(256), rng.randrange(65536), different_references(rng, references), numbers)


# ---- Damage. Each takes a block and gives it damaged; what a block has too little of stays as it is.

def with_bytes(data, at, new):
    return data[:at] + new + data[at + len(new):]


def request_at(data, index):
    return HEADER_BYTES + REFERENCE_BYTES * data[3] + REQUEST_BYTES * index


def flip_bit(rng, data):
    return flipped(rng, data) if data else data


def change_count(rng, data):
    if len(data) < HEADER_BYTES:
        return data
    near = [MAX_REQUESTS, MAX_REQUESTS + 1, MAX_REFERENCES, MAX_REFERENCES + 1]
    return with_bytes(data, rng.choice([3, 4]), bytes([rng.choice([0, 1, *near, 255, rng.randrange(256)])]))


def cut(rng, data):
    return data[:rng.randint(0, len(data))]


def extend(rng, data):
    return (data + rng.randbytes(rng.randint(1, 40)))[:MAX_BLOCK_BYTES]


def repeat_reference(rng, data):
    if len(data) < HEADER_BYTES or not 2 <= data[3] <= MAX_REFERENCES:
        return data
    earlier, later = sorted(rng.sample(range(data[3]), 2))
    start = HEADER_BYTES + REFERENCE_BYTES * earlier
    return with_bytes(data, HEADER_BYTES + REFERENCE_BYTES * later, data[start:start + REFERENCE_BYTES])[:len(data)]


def repeat_slot(rng, data):
    if len(data) < HEADER_BYTES or not 2 <= data[4] <= MAX_REQUESTS:
        return data
    earlier, later = sorted(rng.sample(range(data[4]), 2))
    start = request_at(data, earlier)
    return with_bytes(data, request_at(data, later), data[start:start + 1])[:len(data)]


def change_request(rng, data, offset, new):
    if len(data) < HEADER_BYTES or not 1 <= data[4] <= MAX_REQUESTS:
        return data
    return with_bytes(data, request_at(data, rng.randrange(data[4])) + offset, new)[:len(data)]


def zero_number(rng, data):
    return change_request(rng, data, 1, bytes(2))


def high_slot(rng, data):
    return change_request(rng, data, 0, bytes([rng.choice([8, 9, 255, rng.randint(8, 255)])]))


# These leave the length right, so that 6, 18 and 7 meet.
LIST_DAMAGES = [repeat_reference, repeat_slot, zero_number, high_slot]
DAMAGES = [flip_bit, change_count, cut, extend, *LIST_DAMAGES]


def damaged(rng, damages=None):
    """A block with one to five damages."""
    data = lawful(rng)
    for damage in rng.choices(damages or DAMAGES, k=rng.randint(1, 5)):
        data = damage(rng, data)
    return data


# ---- Streams

def stream_of(blocks):
    return b"".join(map(arrival, blocks))


def over_long(rng, length=None):
    """An arrival that is longer than a block may be."""
    shortest = MAX_BLOCK_BYTES + 1
    length = length or rng.choice([shortest, shortest + 1, 2 * shortest, 65535, rng.randint(shortest, 65535)])
    return length.to_bytes(2, "big") + rng.randbytes(length)


def random_stream(rng):
    """A few arrivals of every kind; the end is often cut."""
    kinds = [lambda: arrival(lawful(rng)), lambda: arrival(damaged(rng)), lambda: over_long(rng)]
    stream = b"".join(action() for action in rng.choices(kinds, weights=[3, 3, 1], k=rng.randint(0, 8)))
    return cut(rng, stream) if rng.random() < 0.7 else stream
