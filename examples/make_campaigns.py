#!/usr/bin/env python3
"""Writes the example campaigns for the listing, NAME.campaign beside this file.

NAME.listing has what the listing says of it. To make a campaign of your own, write a function like those below.
"""

from pathlib import Path

from campaign import MAX_BLOCK_BYTES, Campaign, Draft, block, digest


def chain():
    """One site alone: its request is delivered three blocks later. Then the first block comes once more."""
    night = Campaign(sites=1, owners=[0] * 8)
    first = night.site(0).requests(7, slot=0)
    night.site(0)
    night.site(0)
    night.site(0)
    night.arrives(first)
    return night.stream()


def four_sites():
    """Four sites, of which one forks, deliver the same numbers in three slots."""
    night = Campaign(sites=4, owners=[0, 1, 2, 3, 0, 1, 2, 3])

    # Requests. Site 3 forks: it requests 7 in slot 3, and in another block of sequence number 0 it requests 8.
    zero = night.site(0).requests(42, slot=0)
    one = night.site(1).requests(1610, slot=5)
    seven = night.site(3).requests(7, slot=3)
    eight = Draft(3).requests(8, slot=3)

    # Each site refers to the requests that it has seen, and so echoes them: sites 0, 1 and 3 the 7, site 2 the 8.
    echoes = [night.site(0).refers_to(one, seven), night.site(1).refers_to(zero, seven), night.site(3).refers_to(zero, one)]
    # Site 2's block comes before a block that it refers to, and is refused. It comes again, and is admitted.
    two = night.site(2).refers_to(zero, one, eight)
    night.arrives(eight)
    night.arrives(two)

    # All see all echoes, three of which are for 7, and get ready. All see that all are ready, and deliver.
    readies = [night.site(site).refers_to(*echoes, two) for site in range(4)]
    for site in range(4):
        night.site(site).refers_to(*readies)

    # A block that is held already is refused.
    night.arrives(zero)
    return night.stream()


def another_night():
    """The same four sites in another campaign: all refer to all blocks of the round before, and deliver in the fourth round."""
    night = Campaign(sites=4, owners=[0, 1, 2, 3, 0, 1, 2, 3])
    night.site(0).requests(977, slot=4)
    night.site(1)
    night.site(2).requests(3, slot=6)
    night.site(3)
    for _ in range(3):
        before = list(night.newest.values())
        for site in range(4):
            night.site(site).refers_to(*before)
    return night.stream()


def refusals():
    """Every refusal that a listing can show of an arrival."""
    night = Campaign(sites=4, owners=[0, 1, 2, 3, 0, 1, 2, 3])
    first = night.site(0).requests(42, slot=0)

    # 3: under five bytes; a byte less than the counts give; a byte more than the longest block.
    night.arrives(bytes(4))
    night.arrives(bytes(first)[:-1])
    night.arrives(bytes(MAX_BLOCK_BYTES + 1))
    # 4: there is no site 4.
    night.arrives(block(4, 0))
    # 5: the link says that the signature isn't good.
    night.arrives(block(1, 0), verdict=0)
    # 6: there is no slot 8; a number isn't 0.
    night.arrives(block(1, 0, requests=[(8, 42)]))
    night.arrives(block(1, 0, requests=[(1, 0)]))
    # 18: the second request is for the slot of the first.
    night.arrives(block(1, 0, requests=[(1, 42), (1, 43)]))
    # 7: the second reference is the first once more.
    night.arrives(block(1, 0, references=[digest(first), digest(first)]))
    # 8: the block is held.
    night.arrives(first)
    # 9: a reference to a block that never came.
    night.arrives(block(1, 0, references=[digest(block(3, 0))]))
    # 10: sequence number 2, and no reference to the site's block of number 1.
    night.arrives(block(0, 2, references=[digest(first)]))

    # 11: site 2 fills the table's 64 places, and builds once more.
    for _ in range(63):
        night.site(2)
    night.site(2)
    # 8 comes before 11.
    night.arrives(first)

    # 3: the input's end cuts the last arrival.
    night.arrives(first)
    return night.stream()[:-1]


def unlawful():
    """1: three sites are no lawful number, and what follows isn't looked at."""
    night = Campaign(sites=3, owners=[0, 1, 2, 0, 1, 2, 0, 1])
    night.site(0).requests(42, slot=0)
    return night.stream()


CAMPAIGNS = {"chain": chain, "four_sites": four_sites, "another_night": another_night, "refusals": refusals, "unlawful": unlawful}


if __name__ == "__main__":
    for name, stream in CAMPAIGNS.items():
        Path(__file__).with_name(f"{name}.campaign").write_bytes(stream())
