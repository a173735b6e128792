"""Inputs of the listing, each with the lines that document 01 gives for it, worked out by hand; test_listing.py runs them."""

from typing import NamedTuple

from campaign import MAX_BLOCK_BYTES, MAX_REFERENCES, MAX_REQUESTS, Campaign, Draft, arrival, block, digest, setup

NAMES = "arrival place site seq slot number refusal"
OWNERS = [0, 1, 2, 3, 0, 1, 2, 3]
FOUR_SITES = setup(4, OWNERS)
ONE_SITE = setup(1, [0] * 8)


def one_site():
    """A campaign of one site, which owns all slots."""
    return Campaign(1, [0] * 8)


def four_sites():
    """A campaign of four sites, each of which owns two slots."""
    return Campaign(4, OWNERS)


FIRST = block(0, 0)
UNKNOWN = digest(b"no block")


def of_slots(slots):
    """A request of each slot."""
    return [(slot, 42) for slot in slots]


class Case(NamedTuple):
    name: str
    stream: bytes
    lines: list  # after the names


def text_of(lines):
    """A listing that has these lines after the names."""
    return "".join(line + "\n" for line in [NAMES, *lines])


# ---- The setup

SETUPS = [
    Case("no input", b"", ["- - - - - - 1"]),
    Case("n alone", FOUR_SITES[:1], ["- - - - - - 1"]),
    Case("seven owners", FOUR_SITES[:8], ["- - - - - - 1"]),
    Case("a setup alone", FOUR_SITES, []),
    Case("no site", setup(0, [0] * 8), ["- - - - - - 1"]),
    Case("three sites, and a good arrival", setup(3, [0] * 8) + arrival(FIRST), ["- - - - - - 1"]),
    Case("an unlawful n alone", b"\5", ["- - - - - - 1"]),
    Case("owner 4 of slot 0", setup(4, [4, 1, 2, 3, 0, 1, 2, 3]), ["- - - - - - 1"]),
    Case("owner 4 of slot 7, and a good arrival", setup(4, [0, 1, 2, 3, 0, 1, 2, 4]) + arrival(FIRST), ["- - - - - - 1"]),
    Case("owner 1 of one site", setup(1, [0, 0, 0, 1, 0, 0, 0, 0]), ["- - - - - - 1"]),
    Case("owner 255", setup(16, [0, 255, 0, 0, 0, 0, 0, 0]), ["- - - - - - 1"]),
    Case("owner 15 of 16 sites", setup(16, [15] * 8), []),
    Case("nine bytes of text", b"campaigns", ["- - - - - - 1"]),
]


# ---- 3: bytes that are no block, and lengths that no block has

def longest():
    """A chain of 16 blocks, and a longest block, which refers to them all, twice."""
    night = one_site()
    parts = [night.site(0) for _ in range(MAX_REFERENCES)]
    last = night.site(0).refers_to(*parts)
    for slot in range(MAX_REQUESTS):
        last.requests(65535, slot=slot)
    night.arrives(last)
    return night.stream()


def cut_to_over_long():
    """A block of 16 references and a request of each slot, cut to every length that no block has; then a first block, twice."""
    whole = block(0, 0, [digest(bytes([i])) for i in range(MAX_REFERENCES)], of_slots(range(8)))
    cut = [whole[:length] for length in range(MAX_BLOCK_BYTES + 1, len(whole) + 1)]
    lines = [f"{number} - - - - - 3" for number in range(len(cut))]
    return Case("a request of each slot, and a good block", FOUR_SITES + b"".join(map(arrival, cut)) + arrival(FIRST) * 2,
                [*lines, f"{len(cut) + 1} - - - - - 8"])


OVER_LONG = bytes(MAX_BLOCK_BYTES + 1)


def arrivals_inside(length):
    """Bytes that would be good arrivals if they weren't a part of one."""
    return (arrival(FIRST) * length)[:length]


SHAPES = [
    Case("0 bytes", FOUR_SITES + arrival(b""), ["0 - - - - - 3"]),
    Case("1 byte", FOUR_SITES + arrival(b"\0"), ["0 - - - - - 3"]),
    Case("4 bytes, and a good block", FOUR_SITES + arrival(bytes(4)) + arrival(FIRST) * 2,
         ["0 - - - - - 3", "2 - - - - - 8"]),
    Case("5 bytes", FOUR_SITES + arrival(bytes(5)) * 2, ["1 - - - - - 8"]),
    Case("a byte too many", FOUR_SITES + arrival(bytes(6)), ["0 - - - - - 3"]),
    Case("a byte too few", FOUR_SITES + arrival(block(0, 0, [UNKNOWN], [(0, 7)])[:-1]), ["0 - - - - - 3"]),
    Case("p 1 and no reference", FOUR_SITES + arrival(bytes([0, 0, 0, 1, 0])), ["0 - - - - - 3"]),
    Case("p 17 in the most bytes", FOUR_SITES + arrival(bytes([0, 0, 0, 17, 0]).ljust(MAX_BLOCK_BYTES, b"\0")), ["0 - - - - - 3"]),
    Case("a request too many", FOUR_SITES + arrival(block(0, 0, requests=of_slots(range(MAX_REQUESTS + 1)))), ["0 - - - - - 3"]),
    Case("p and r 255", FOUR_SITES + arrival(bytes([0, 0, 0, 255, 255])), ["0 - - - - - 3"]),
    Case("the most bytes, and no block", FOUR_SITES + arrival(bytes(MAX_BLOCK_BYTES)) + arrival(FIRST) * 2,
         ["0 - - - - - 3", "2 - - - - - 8"]),
    Case("the longest block", longest(), ["17 - - - - - 8"]),
    cut_to_over_long(),
    Case("a byte more than the most", FOUR_SITES + arrival(OVER_LONG), ["0 - - - - - 3"]),
    Case("a byte more than the most, and a good block", FOUR_SITES + arrival(OVER_LONG) + arrival(FIRST) * 2,
         ["0 - - - - - 3", "2 - - - - - 8"]),
    Case("a byte more than the most with verdict 0", FOUR_SITES + arrival(OVER_LONG, verdict=0) + arrival(FIRST) * 2,
         ["0 - - - - - 3", "2 - - - - - 8"]),
    Case("65,535 bytes, and a good block", FOUR_SITES + arrival(bytes(65535)) + arrival(FIRST) * 2,
         ["0 - - - - - 3", "2 - - - - - 8"]),
    Case("a byte more than the most with good arrivals inside",
         FOUR_SITES + arrival(arrivals_inside(len(OVER_LONG))) + arrival(FIRST), ["0 - - - - - 3"]),
    Case("65,535 bytes with good arrivals inside", FOUR_SITES + arrival(arrivals_inside(65535)) + arrival(FIRST),
         ["0 - - - - - 3"]),
]


# ---- 4 to 11 and 18, each by itself

def sequence_one_after(*sites):
    """Blocks of sequence number 0, one of each site named, and a block of site 0 that has number 1 and refers to them all."""
    blocks = [block(site, 0, requests=[(7, number)]) for number, site in enumerate(sites, start=1)]
    return FOUR_SITES + b"".join(map(arrival, blocks)) + arrival(block(0, 1, [digest(data) for data in blocks]))


REFUSALS = [
    Case("4: site 4 of four", FOUR_SITES + arrival(block(4, 0)), ["0 - - - - - 4"]),
    Case("4: site 255", FOUR_SITES + arrival(block(255, 0)), ["0 - - - - - 4"]),
    Case("4: site 1 of one", ONE_SITE + arrival(block(1, 0)), ["0 - - - - - 4"]),
    Case("site 3 of four", FOUR_SITES + arrival(block(3, 0)), []),
    Case("5: verdict 0", FOUR_SITES + arrival(FIRST, verdict=0), ["0 - - - - - 5"]),
    Case("5: verdict 2", FOUR_SITES + arrival(FIRST, verdict=2), ["0 - - - - - 5"]),
    Case("5: verdict 255", FOUR_SITES + arrival(FIRST, verdict=255), ["0 - - - - - 5"]),
    Case("verdict 0, then 1, then 1", FOUR_SITES + arrival(FIRST, verdict=0) + arrival(FIRST) * 2,
         ["0 - - - - - 5", "2 - - - - - 8"]),
    Case("6: slot 8", FOUR_SITES + arrival(block(0, 0, requests=[(8, 42)])), ["0 - - - - - 6"]),
    Case("6: slot 255 in the last request",
         FOUR_SITES + arrival(block(0, 0, requests=of_slots([*range(MAX_REQUESTS - 1), 255]))), ["0 - - - - - 6"]),
    Case("6: number 0", FOUR_SITES + arrival(block(0, 0, requests=[(0, 0)])), ["0 - - - - - 6"]),
    Case("slot 7, number 65,535", FOUR_SITES + arrival(block(0, 0, requests=[(7, 65535)])), []),
    Case("18: a slot twice", FOUR_SITES + arrival(block(0, 0, requests=[(2, 5), (2, 6)])), ["0 - - - - - 18"]),
    Case("18: a slot twice with one number", FOUR_SITES + arrival(block(0, 0, requests=of_slots([7, 7]))), ["0 - - - - - 18"]),
    Case("18: slot 0 in the first request and in the last",
         FOUR_SITES + arrival(block(0, 0, requests=of_slots([*range(MAX_REQUESTS - 1), 0]))), ["0 - - - - - 18"]),
    Case("the most requests, of slots in no order", FOUR_SITES + arrival(block(0, 0, requests=of_slots([7, 0, 3, 6, 1]))), []),
    Case("7: two equal references", FOUR_SITES + arrival(FIRST) + arrival(block(1, 0, [digest(FIRST)] * 2)), ["1 - - - - - 7"]),
    Case("8: a block once more", FOUR_SITES + arrival(FIRST) * 2, ["1 - - - - - 8"]),
    Case("8: and once more again", FOUR_SITES + arrival(FIRST) * 3, ["1 - - - - - 8", "2 - - - - - 8"]),
    Case("9: a reference to no block", FOUR_SITES + arrival(block(0, 0, [UNKNOWN])), ["0 - - - - - 9"]),
    Case("9: a reference to a block that was refused",
         FOUR_SITES + arrival(FIRST, verdict=0) + arrival(block(1, 0, [digest(FIRST)])), ["0 - - - - - 5", "1 - - - - - 9"]),
    Case("9: the second reference", FOUR_SITES + arrival(FIRST) + arrival(block(1, 0, [digest(FIRST), UNKNOWN])),
         ["1 - - - - - 9"]),
    Case("10: sequence 1 without references", FOUR_SITES + arrival(block(0, 1)), ["0 - - - - - 10"]),
    Case("10: sequence 1 and both forks of sequence 0", sequence_one_after(0, 0), ["2 - - - - - 10"]),
    Case("10: the block before is another site's", sequence_one_after(1), ["1 - - - - - 10"]),
    Case("one parent, beside another site's block", sequence_one_after(1, 0), []),
    Case("10: sequence 2 after 0", FOUR_SITES + arrival(FIRST) + arrival(block(0, 2, [digest(FIRST)])), ["1 - - - - - 10"]),
    Case("10: sequence 257 after 0", FOUR_SITES + arrival(FIRST) + arrival(block(0, 257, [digest(FIRST)])), ["1 - - - - - 10"]),
    Case("10: sequence 65,535", FOUR_SITES + arrival(FIRST) + arrival(block(0, 65535, [digest(FIRST)])), ["1 - - - - - 10"]),
]


# ---- Where two faults meet, the first decides in the order 3, 4, 5, 6, 18, 7 to 11

ORDER = [
    Case("3 before 4", FOUR_SITES + arrival(bytes([4, 0, 0, 0, 0, 0])), ["0 - - - - - 3"]),
    Case("3 before 5", FOUR_SITES + arrival(bytes(6), verdict=0), ["0 - - - - - 3"]),
    Case("3 before 6", FOUR_SITES + arrival(block(0, 0, requests=[(8, 0)]) + b"\0"), ["0 - - - - - 3"]),
    Case("3 before 18", FOUR_SITES + arrival(block(0, 0, requests=of_slots([1, 1])) + b"\0"), ["0 - - - - - 3"]),
    Case("4 before 5", FOUR_SITES + arrival(block(4, 0), verdict=0), ["0 - - - - - 4"]),
    Case("4 before 6", FOUR_SITES + arrival(block(4, 0, requests=[(8, 42)])), ["0 - - - - - 4"]),
    Case("4 before 18", FOUR_SITES + arrival(block(4, 0, requests=of_slots([1, 1]))), ["0 - - - - - 4"]),
    Case("4 before 7", FOUR_SITES + arrival(block(4, 0, [UNKNOWN] * 2)), ["0 - - - - - 4"]),
    Case("4 before 9", FOUR_SITES + arrival(block(4, 0, [UNKNOWN])), ["0 - - - - - 4"]),
    Case("5 before 6", FOUR_SITES + arrival(block(0, 0, requests=[(0, 0)]), verdict=0), ["0 - - - - - 5"]),
    Case("5 before 18", FOUR_SITES + arrival(block(0, 0, requests=of_slots([1, 1])), verdict=0), ["0 - - - - - 5"]),
    Case("5 before 7", FOUR_SITES + arrival(block(0, 0, [UNKNOWN] * 2), verdict=2), ["0 - - - - - 5"]),
    Case("5 before 8", FOUR_SITES + arrival(FIRST) + arrival(FIRST, verdict=0), ["1 - - - - - 5"]),
    Case("5 before 9", FOUR_SITES + arrival(block(0, 0, [UNKNOWN]), verdict=0), ["0 - - - - - 5"]),
    Case("6 before 18", FOUR_SITES + arrival(block(0, 0, requests=of_slots([1, 1, 8]))), ["0 - - - - - 6"]),
    Case("6 before 7", FOUR_SITES + arrival(block(0, 0, [UNKNOWN] * 2, [(8, 42)])), ["0 - - - - - 6"]),
    Case("6 before 10", FOUR_SITES + arrival(block(0, 1, requests=[(0, 0)])), ["0 - - - - - 6"]),
    Case("18 before 7", FOUR_SITES + arrival(block(0, 0, [UNKNOWN] * 2, of_slots([1, 1]))), ["0 - - - - - 18"]),
    Case("18 before 9", FOUR_SITES + arrival(block(0, 0, [UNKNOWN], of_slots([1, 1]))), ["0 - - - - - 18"]),
    Case("18 before 10", FOUR_SITES + arrival(block(0, 1, requests=of_slots([1, 1]))), ["0 - - - - - 18"]),
    Case("7 before 9", FOUR_SITES + arrival(block(0, 0, [UNKNOWN] * 2)), ["0 - - - - - 7"]),
    Case("7 before 10", FOUR_SITES + arrival(FIRST) + arrival(block(0, 2, [digest(FIRST)] * 2)), ["1 - - - - - 7"]),
    Case("9 before 10", FOUR_SITES + arrival(block(0, 1, [UNKNOWN])), ["0 - - - - - 9"]),
]


# ---- A full table

def more_blocks(night, count):
    """So many of site 0, each after the one before."""
    for _ in range(count):
        night.site(0)


def full_table():
    night = four_sites()
    more_blocks(night, 64)
    return night


def one_more():
    night = full_table()
    night.site(0)
    return night.stream()


FULL = full_table().stream()
FULL_TABLE = [
    Case("64 blocks", FULL, []),
    Case("11: the 65th", one_more(), ["64 - - - - - 11"]),
    Case("11: the 65th is the first of its site", FULL + arrival(block(1, 0)), ["64 - - - - - 11"]),
    Case("11: and the next", FULL + arrival(block(1, 0)) * 2, ["64 - - - - - 11", "65 - - - - - 11"]),
    Case("8 before 11", FULL + arrival(FIRST), ["64 - - - - - 8"]),
    Case("9 before 11", FULL + arrival(block(1, 0, [UNKNOWN])), ["64 - - - - - 9"]),
    Case("10 before 11", FULL + arrival(block(1, 1, [digest(FIRST)])), ["64 - - - - - 10"]),
    Case("7 before 11", FULL + arrival(block(1, 0, [digest(FIRST)] * 2)), ["64 - - - - - 7"]),
    Case("18 before 11", FULL + arrival(block(1, 0, requests=of_slots([1, 1]))), ["64 - - - - - 18"]),
    Case("6 before 11", FULL + arrival(block(1, 0, requests=[(1, 0)])), ["64 - - - - - 6"]),
    Case("5 before 11", FULL + arrival(block(1, 0), verdict=0), ["64 - - - - - 5"]),
    Case("4 before 11", FULL + arrival(block(4, 0)), ["64 - - - - - 4"]),
    Case("3 before 11", FULL + arrival(bytes(4)), ["64 - - - - - 3"]),
]


# ---- Cut by the input's end: one line, whatever else is wrong

CUTS = [
    Case("at an arrival's end", FOUR_SITES + arrival(FIRST), []),
    Case("one byte of length", FOUR_SITES + b"\0", ["0 - - - - - 3"]),
    Case("one byte of a length that no block has", FOUR_SITES + b"\xff", ["0 - - - - - 3"]),
    Case("before the verdict", FOUR_SITES + arrival(FIRST)[:2], ["0 - - - - - 3"]),
    Case("before the verdict of no bytes", FOUR_SITES + arrival(b"")[:2], ["0 - - - - - 3"]),
    Case("before the block", FOUR_SITES + arrival(FIRST)[:3], ["0 - - - - - 3"]),
    Case("in the block", FOUR_SITES + arrival(FIRST)[:4], ["0 - - - - - 3"]),
    Case("before the block's last byte", FOUR_SITES + arrival(FIRST)[:-1], ["0 - - - - - 3"]),
    Case("in the second arrival", FOUR_SITES + arrival(FIRST) + arrival(FIRST)[:-1], ["1 - - - - - 3"]),
    Case("after a refused arrival", FOUR_SITES + arrival(FIRST, verdict=0) + b"\0", ["0 - - - - - 5", "1 - - - - - 3"]),
    Case("where the bytes that are there would be a block", FOUR_SITES + b"\0\6\1" + FIRST, ["0 - - - - - 3"]),
    Case("and site 4", FOUR_SITES + arrival(block(4, 0))[:-1], ["0 - - - - - 3"]),
    Case("and verdict 0", FOUR_SITES + arrival(FIRST, verdict=0)[:-1], ["0 - - - - - 3"]),
    Case("and a full table", FULL + arrival(block(1, 0))[:-1], ["64 - - - - - 3"]),
    Case("a byte more than the most, before the verdict", FOUR_SITES + arrival(OVER_LONG)[:2], ["0 - - - - - 3"]),
    Case("a byte more than the most, after the verdict", FOUR_SITES + arrival(OVER_LONG)[:3], ["0 - - - - - 3"]),
    Case("a byte more than the most, in the skipped bytes", FOUR_SITES + arrival(OVER_LONG)[:300], ["0 - - - - - 3"]),
    Case("a byte more than the most, before the last skipped byte", FOUR_SITES + arrival(OVER_LONG)[:-1], ["0 - - - - - 3"]),
    Case("a byte more than the most, one byte after them", FOUR_SITES + arrival(OVER_LONG) + b"\0", ["0 - - - - - 3", "1 - - - - - 3"]),
    Case("65,535 bytes, nothing after the length", FOUR_SITES + b"\xff\xff", ["0 - - - - - 3"]),
    Case("65,535 bytes, before the last skipped byte", FOUR_SITES + arrival(bytes(65535))[:-1], ["0 - - - - - 3"]),
]


# ---- Campaigns that deliver, or don't. Each function is a case: its name says what it shows, and it fills the campaign above it,
# of which the lines follow.

DELIVERIES = []


def lists(night, *lines):
    """Makes a function a case of DELIVERIES: it fills this campaign, of which these are the lines."""
    def add(fill):
        fill(night)
        DELIVERIES.append(Case(fill.__name__.replace("_", " "), night.stream(), list(lines)))
        return fill
    return add


def all_refer(night, sites, blocks):
    """Each of these sites builds a block that refers to all these blocks; the new ones."""
    return [night.site(site).refers_to(*blocks) for site in sites]


def more_rounds(night, sites, blocks, count):
    """So many rounds of these sites, the first on these blocks and each other one on the round before."""
    for _ in range(count):
        blocks = all_refer(night, sites, blocks)


def up_to_ready(night, sites):
    """Site 0 requests 42 in slot 0, these sites echo it and get ready for it: the blocks in which they are ready.

    Arrival 0 is the request; then come the echoes, and then the blocks given, one for each site."""
    request = night.site(0).requests(42, slot=0)
    return all_refer(night, sites, all_refer(night, sites, [request]))


# ---- One site: a request, and three blocks later its delivery

@lists(one_site(),
       "3 3 0 3 0 1 0",
       "3 3 0 3 3 256 0",
       "3 3 0 3 7 65535 0")
def several_slots_in_one_block_the_lower_first(night):
    night.site(0).requests(65535, slot=7).requests(1, slot=0).requests(256, slot=3)
    more_blocks(night, 3)


@lists(one_site(),
       "3 3 0 3 3 10003 0",
       "3 3 0 3 4 10004 0",
       "3 3 0 3 5 10005 0",
       "3 3 0 3 6 10006 0",
       "3 3 0 3 7 10007 0",
       "4 4 0 4 0 10000 0",
       "4 4 0 4 1 10001 0",
       "4 4 0 4 2 10002 0")
def all_slots_in_two_blocks(night):
    for slots in [(7, 6, 5, 4, 3), (2, 1, 0)]:
        asking = night.site(0)
        for slot in slots:
            asking.requests(10000 + slot, slot=slot)
    more_blocks(night, 3)


@lists(one_site(),
       "3 3 0 3 0 7 0",
       "4 4 0 4 1 9 0")
def two_slots_in_two_blocks(night):
    night.site(0).requests(7, slot=0)
    night.site(0).requests(9, slot=1)
    more_blocks(night, 4)


@lists(one_site(),
       "0 - - - - - 18",
       "4 3 0 3 2 6 0")
def a_block_that_requests_a_slot_twice_is_refused_and_another_delivers(night):
    night.arrives(Draft(0).requests(5, slot=2).requests(6, slot=2))
    night.site(0).requests(6, slot=2)
    more_blocks(night, 3)


@lists(one_site(), "3 3 0 3 0 7 0")
def the_second_request_a_block_later_sends_nothing(night):
    night.site(0).requests(7, slot=0)
    night.site(0).requests(8, slot=0)
    more_blocks(night, 5)


@lists(one_site(), "12 12 0 12 0 12345 0")
def a_sequence_number_of_two_digits(night):
    more_blocks(night, 9)
    night.site(0).requests(12345, slot=0)
    more_blocks(night, 3)


@lists(one_site(),
       "63 63 0 63 2 65535 0",
       "64 - - - - - 11")
def the_last_place_delivers(night):
    more_blocks(night, 60)
    night.site(0).requests(65535, slot=2)
    more_blocks(night, 4)


@lists(one_site(),
       *(f"{number} - - - - - 5" for number in range(100)),
       "103 3 0 3 0 7 0")
def arrival_numbers_go_on_where_places_do_not(night):
    for _ in range(100):
        night.arrives(FIRST, verdict=0)
    night.site(0).requests(7, slot=0)
    more_blocks(night, 3)


# ---- Four sites, and more: the thresholds

@lists(four_sites(),
       "9 9 0 3 0 42 0",
       "10 10 1 2 0 42 0",
       "11 11 2 2 0 42 0",
       "12 12 3 2 0 42 0")
def thirteen_blocks(night):
    all_refer(night, range(4), up_to_ready(night, range(4)))


@lists(four_sites(),
       "7 7 0 3 0 42 0",
       "8 8 1 2 0 42 0",
       "9 9 2 2 0 42 0")
def three_sites_of_four(night):
    all_refer(night, range(3), up_to_ready(night, range(3)))


@lists(four_sites())
def two_sites_of_four_deliver_nothing(night):
    more_rounds(night, range(2), up_to_ready(night, range(2)), 5)


@lists(Campaign(7, [0] * 8),
       "11 11 0 3 0 42 0",
       "12 12 1 2 0 42 0",
       "13 13 2 2 0 42 0",
       "14 14 3 2 0 42 0",
       "15 15 4 2 0 42 0")
def five_sites_of_seven(night):
    all_refer(night, range(5), up_to_ready(night, range(5)))


@lists(Campaign(7, [0] * 8))
def four_sites_of_seven_deliver_nothing(night):
    more_rounds(night, range(4), up_to_ready(night, range(4)), 5)


@lists(Campaign(16, [0] * 8),
       "33 33 0 3 0 42 0",
       *(f"{33 + site} {33 + site} {site} 2 0 42 0" for site in range(1, 16)))
def sixteen_sites_and_sixteen_references(night):
    all_refer(night, range(16), up_to_ready(night, range(16)))


@lists(four_sites(), "7 7 3 0 0 42 0")
def a_site_delivers_in_its_first_block(night):
    readies = up_to_ready(night, range(3))
    night.site(3).refers_to(*readies)


@lists(four_sites(),
       "7 7 0 3 0 42 0",
       "8 8 3 1 0 42 0")
def two_that_are_ready_make_a_third_ready(night):
    request = night.site(0).requests(42, slot=0)
    echoes = all_refer(night, range(3), [request])
    zero, one = all_refer(night, range(2), echoes)
    three = night.site(3).refers_to(zero, one)  # arrival 6: it has heard no echo
    night.site(0).refers_to(one, three)
    night.site(3)  # hears that it is ready itself
    night.site(1).refers_to(zero)  # has heard of two alone


@lists(four_sites())
def two_echoes_make_nobody_ready(night):
    request = night.site(0).requests(42, slot=0)
    echoes = all_refer(night, range(2), [request])
    more_rounds(night, range(4), echoes, 3)


@lists(four_sites())
def one_that_is_ready_makes_nobody_ready(night):
    request = night.site(0).requests(42, slot=0)
    echoes = all_refer(night, range(3), [request])
    ready = night.site(0).refers_to(*echoes)
    more_rounds(night, range(1, 4), [ready], 3)


@lists(four_sites(), "9 9 0 3 0 42 0")
def a_number_is_delivered_once(night):
    readies = up_to_ready(night, range(4))
    night.site(0).refers_to(*readies[:3])
    night.site(0).refers_to(readies[3])


@lists(four_sites(),
       "7 7 0 3 0 42 0",
       "8 8 1 2 0 42 0",
       "9 9 2 2 0 42 0")
def a_site_is_ready_once(night):
    blocks = all_refer(night, range(3), up_to_ready(night, range(3)))
    night.site(3).refers_to(*blocks)


@lists(four_sites())
def the_second_request_is_not_sent_to_sites_that_missed_the_first(night):
    night.site(0).requests(42, slot=0)
    second = night.site(0).requests(43, slot=0)
    more_rounds(night, range(1, 4), [second], 4)


@lists(Campaign(4, [0] * 8))
def a_request_by_another_site_than_the_owner(night):
    request = night.site(1).requests(42, slot=0)
    more_rounds(night, range(4), [request], 4)


@lists(four_sites(),
       "9 9 0 3 0 42 0",
       "11 11 1 3 0 42 0")
def messages_of_further_ancestors_are_not_heard(night):
    readies = up_to_ready(night, range(4))
    zero = night.site(0).refers_to(*readies)
    night.site(1).refers_to(zero)  # arrival 10: refers to one of the readies, its own
    night.site(1).refers_to(*readies)


# ---- Forks

@lists(one_site(),
       "5 5 0 3 0 7 0",
       "6 6 0 3 0 7 0",
       "8 8 0 4 1 9 0")
def both_branches_of_one_site_deliver(night):
    night.site(0).requests(7, slot=0)
    night.site(0)
    right = night.fork(0).requests(9, slot=1)
    night.site(0)
    right = night.after(right)
    night.site(0)
    right = night.after(right)
    night.site(0)
    night.after(right)


@lists(one_site(),
       "6 6 0 3 0 42 0",
       "7 7 0 3 0 43 0")
def more_than_f_forks_and_two_numbers(night):
    night.site(0).requests(42, slot=0)
    right = night.fork(0).requests(43, slot=0)
    for _ in range(3):
        night.site(0)
        right = night.after(right)


@lists(four_sites(),
       "10 10 0 3 0 42 0",
       "11 11 1 2 0 42 0",
       "12 12 2 2 0 42 0",
       "13 13 3 2 0 42 0")
def the_owner_forks_and_the_lower_number_is_echoed(night):
    lower = night.site(0).requests(42, slot=0)
    higher = night.fork(0).requests(43, slot=0)
    echoes = [night.site(1).refers_to(higher, lower), night.site(3).refers_to(higher, lower),
              night.site(2).refers_to(higher), night.site(0)]
    readies = all_refer(night, range(4), echoes)
    all_refer(night, range(4), readies)


@lists(four_sites(),
       "9 9 0 3 0 42 0",
       "10 10 1 2 0 42 0",
       "11 11 2 2 0 42 0",
       "12 12 3 2 0 42 0",
       "13 13 3 2 0 42 0")
def both_branches_of_one_of_four_sites_deliver(night):
    readies = up_to_ready(night, range(4))
    all_refer(night, range(4), readies)
    night.fork(3).refers_to(*readies).requests(8, slot=3)


@lists(four_sites(),
       "9 9 3 2 0 42 0",
       "12 12 3 3 0 42 0")
def a_branch_starts_as_its_parent(night):
    request = night.site(0).requests(42, slot=0)
    echoes = all_refer(night, range(4), [request])
    readies = all_refer(night, range(4), echoes)
    night.site(3).refers_to(*readies)
    branch = night.after(echoes[3])  # arrival 10: not ready
    branch = night.after(branch).refers_to(readies[0], readies[1])  # ready, as two others
    night.after(branch)


@lists(four_sites(), "9 9 1 2 0 42 0")
def a_forked_site_counts_once(night):
    request = night.site(0).requests(42, slot=0)
    echoes = all_refer(night, range(4), [request])
    zero, three = all_refer(night, [0, 3], echoes)
    other = night.fork(3).refers_to(*echoes).requests(8, slot=3)
    night.site(1).refers_to(zero, three, other)  # arrival 8: two sites are ready, in three blocks
    night.site(1)  # and now itself


@lists(four_sites(),
       "9 9 0 3 0 42 0",
       "10 10 1 2 0 42 0",
       "11 11 2 2 0 42 0")
def of_two_echoes_of_a_forked_site_the_lower_is_noted(night):
    lower = night.site(0).requests(42, slot=0)
    higher = night.fork(0).requests(43, slot=0)
    zero, other = night.site(0), night.after(higher)
    one, two = all_refer(night, [1, 2], [lower])
    readies = [night.site(0).refers_to(one, two), *all_refer(night, [1, 2], [other, zero, one, two])]
    all_refer(night, range(3), readies)


@lists(four_sites())
def a_site_echoes_once(night):
    lower = night.site(0).requests(42, slot=0)
    higher = night.fork(0).requests(43, slot=0)
    all_refer(night, range(1, 4), [lower])
    blocks = all_refer(night, range(1, 4), [higher])
    # Blocks of sequence number 0 have heard nothing yet.
    blocks = [night.arrives(Draft(site).refers_to(*blocks)) for site in range(1, 4)]
    for parent in blocks:
        night.after(parent).refers_to(*blocks)


@lists(one_site(),
       "3 3 0 3 0 7 0",
       "5 5 0 1 0 7 0")
def sequence_0_starts_anew(night):
    night.site(0).requests(7, slot=0)
    night.site(0)
    ready = night.site(0)
    delivering = night.site(0)
    anew = night.arrives(Draft(0).refers_to(delivering))
    night.after(anew).refers_to(ready)


# Sites 1, 2 and 3 fork, more than f: one branch of each is for 42, the other for 43, and site 0 sees some of both.

def two_camps(night):
    """Arrivals 0 to 13, and blocks of sites 1, 2 and 3 among them: that echo 42, are ready for 42, are ready for 43."""
    lower = night.site(0).requests(42, slot=0)
    higher = night.fork(0).requests(43, slot=0)
    echoes = all_refer(night, range(1, 4), [lower])
    others = [night.fork(site).refers_to(higher) for site in range(1, 4)]
    readies = all_refer(night, range(1, 4), echoes)
    return echoes, readies, [night.after(parent).refers_to(*others) for parent in others]


@lists(four_sites(), "15 15 0 2 0 42 0")
def two_numbers_are_counted_apart(night):
    _, lower, higher = two_camps(night)
    night.site(0).refers_to(lower[0], higher[1], lower[2])  # gets ready for 42
    night.site(0)  # and hears itself as the third


@lists(four_sites(), "15 15 0 2 0 42 0")
def of_two_numbers_that_a_forked_site_is_ready_for_the_lower_is_noted(night):
    _, lower, higher = two_camps(night)
    night.site(0).refers_to(higher[0], lower[0], lower[1])
    night.site(0)


@lists(four_sites())
def echoes_are_heard_before_readiness(night):
    echoes, _, higher = two_camps(night)
    night.site(0).refers_to(higher[0], higher[1], *echoes)  # gets ready for 42, with two others for 43
    night.site(0)


@lists(four_sites(), "2 - - - - - 8")
def sequence_0_may_refer_to_its_own_fork(night):
    one = night.site(1)
    other = night.fork(1).refers_to(one)
    night.arrives(other)


@lists(four_sites(),
       "0 - - - - - 9",
       "2 - - - - - 8")
def a_block_that_comes_before_its_parent_and_is_not_sent_again(night):
    first = Draft(2).requests(7, slot=2)
    night.after(first)
    night.arrives(first)
    night.arrives(first)
