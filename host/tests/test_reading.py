"""Block reading, by way of dome: each block's line against the reference's."""

import random
from collections import Counter
from itertools import combinations, permutations

import generate
from campaign import HEADER_BYTES, MAX_BLOCK_BYTES, MAX_REFERENCES, MAX_REQUESTS, REFERENCE_BYTES, REQUEST_BYTES, block
from programs import dome, expect, expect_same_lines
from reference import Refusal, read_block, text_of


def expect_as_reference(blocks):
    stream = generate.stream_of(blocks)
    expect_same_lines(dome(stream), text_of(stream))


def answers_of(blocks):
    """The end of each line after its digest: ' refusal 3', or the fields."""
    return [line.split(" ", 1)[1] for line in dome(generate.stream_of(blocks)).splitlines()]


def different(count):
    return [bytes([i]) * REFERENCE_BYTES for i in range(count)]


def of_slots(slots):
    """A request of each slot."""
    return [(slot, 65535) for slot in slots]


def test_shortest_and_longest():
    slots = range(7, 7 - MAX_REQUESTS, -1)
    longest = block(255, 65535, different(MAX_REFERENCES), of_slots(slots))
    expect(len(longest) == MAX_BLOCK_BYTES, f"{len(longest)} bytes")
    references = ",".join(reference.hex() for reference in different(MAX_REFERENCES))
    requests = ",".join(f"{slot}:65535" for slot in slots)
    wanted = ["refusal 3", "refusal 3", "site 0 seq 0 references - requests -",
              f"site 255 seq 65535 references {references} requests {requests}", "refusal 3"]
    got = answers_of([b"", bytes(4), bytes(5), longest, longest[:-1]])
    expect(got == wanted, f"{got}")


def test_counts_and_lengths_beside_them():
    blocks = []
    for references in range(MAX_REFERENCES + 2):
        for requests in range(MAX_REQUESTS + 2):
            whole = block(1, 2, different(references), of_slots(range(requests)))
            blocks += [whole[:-1], whole, whole + b"\1"]
    expect_as_reference([data for data in blocks if len(data) <= MAX_BLOCK_BYTES])


def test_each_bad_request():
    blocks, wanted = [], []
    for index in range(MAX_REQUESTS):
        for bad in [(8, 1), (255, 1), (0, 0), (8, 0)]:
            requests = [(0, 1)] * index + [bad] + [(8, 0)] * (MAX_REQUESTS - 1 - index)
            # The repeated slot and the repeated reference are refused later than the request.
            blocks.append(block(0, 0, [bytes(REFERENCE_BYTES)] * 2, requests))
            wanted.append(f"refusal 6 index {index}")
    expect(answers_of(blocks) == wanted, "a bad request has another answer")


def test_each_repeated_slot():
    blocks, wanted = [], []
    for earlier, later in combinations(range(MAX_REQUESTS), 2):
        for first in range(8 - MAX_REQUESTS + 1):
            slots = list(range(first, first + MAX_REQUESTS))
            slots[later] = slots[earlier]
            # The repeated reference is refused later than the slot.
            blocks.append(block(0, 0, [bytes(REFERENCE_BYTES)] * 2, of_slots(slots)))
            wanted.append(f"refusal 18 index {later}")
    expect(answers_of(blocks) == wanted, "a repeated slot has another answer")


def test_every_order_of_different_slots():
    blocks = [block(0, 0, requests=of_slots(slots)) for slots in permutations(range(8), MAX_REQUESTS)]
    expect(not any("refusal" in answer for answer in answers_of(blocks)), "different slots were taken as equal")
    expect_as_reference(blocks)


def test_each_repeated_reference():
    blocks, wanted = [], []
    for earlier, later in combinations(range(MAX_REFERENCES), 2):
        references = different(MAX_REFERENCES)
        references[later] = references[earlier]
        blocks.append(block(0, 0, references, [(0, 1)]))
        wanted.append(f"refusal 7 index {later}")
    expect(answers_of(blocks) == wanted, "a repeated reference has another answer")


def test_references_that_differ_in_one_bit():
    one = bytes(REFERENCE_BYTES)
    others = [(1 << bit).to_bytes(REFERENCE_BYTES, "big") for bit in range(8 * REFERENCE_BYTES)]
    answers = answers_of([block(0, 0, [one, other]) for other in others])
    expect(not any("refusal" in answer for answer in answers), "different references were taken as equal")


def test_every_single_bit():
    whole = generate.lawful(random.Random(1), references=2, requests=2)
    blocks = [(int.from_bytes(whole, "big") ^ 1 << bit).to_bytes(len(whole), "big") for bit in range(8 * len(whole))]
    expect_as_reference(blocks)


def test_lawful_blocks():
    rng = random.Random(2)
    blocks = [generate.lawful(rng) for _ in range(1000)]
    expect(not any(isinstance(read_block(data), Refusal) for data in blocks), "the generator's blocks aren't lawful")
    expect_as_reference(blocks)


def test_each_damage():
    for seed, damage in enumerate(generate.DAMAGES):
        rng = random.Random(seed)
        expect_as_reference([damage(rng, generate.lawful(rng)) for _ in range(200)])


def test_several_damages():
    rng = random.Random(3)
    blocks = [generate.damaged(rng) for _ in range(2000)]
    blocks += [generate.damaged(rng, generate.LIST_DAMAGES) for _ in range(2000)]
    expect_as_reference(blocks)
    # All answers are met, 6, 18 and 7 with every index that they can have: else the comparison shows little.
    met = Counter(answer if isinstance(answer, Refusal) else None for answer in map(read_block, blocks))
    wanted = [None, Refusal(3)] + [Refusal(6, i) for i in range(MAX_REQUESTS)]
    wanted += [Refusal(18, i) for i in range(1, MAX_REQUESTS)] + [Refusal(7, i) for i in range(1, MAX_REFERENCES)]
    expect(set(met) == set(wanted), f"answers that were met: {met}")


def test_random_bytes():
    rng = random.Random(4)
    blocks = [rng.randbytes(rng.randint(0, MAX_BLOCK_BYTES)) for _ in range(500)]
    # Small counts that fit the length, and the rest random, so that more than the length is looked at.
    for _ in range(1000):
        references, requests = rng.randint(0, 2), rng.randint(0, 3)
        body = bytes(rng.choice([0, 0, 1, 7, 8]) for _ in range(REFERENCE_BYTES * references + REQUEST_BYTES * requests))
        blocks.append(rng.randbytes(HEADER_BYTES - 2) + bytes([references, requests]) + body)
    expect_as_reference(blocks)
