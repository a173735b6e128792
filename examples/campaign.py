"""Blocks and arrivals as bytes, and whole campaigns written in calls. docs/FORMATS.md has the layouts.

A campaign has a line for each block, in the order in which the blocks arrive:

    from pathlib import Path
    from campaign import Campaign

    night = Campaign(sites=4, owners=[0, 1, 2, 3, 0, 1, 2, 3])
    first = night.site(0).requests(42, slot=0)
    night.site(1).refers_to(first)
    night.site(2).refers_to(first).requests(7, slot=2)
    night.arrives(first)  # once more
    Path("night.campaign").write_bytes(night.stream())

`target/bin/listing < night.campaign` shows what it delivers and what is refused. Nothing is checked here, so that refused
blocks and unlawful setups can be made too.
"""

import hashlib


# ---- A block's sizes and limits

HEADER_BYTES, REFERENCE_BYTES, REQUEST_BYTES = 5, 32, 3
MAX_REFERENCES, MAX_REQUESTS = 16, 5
MAX_BLOCK_BYTES = HEADER_BYTES + REFERENCE_BYTES * MAX_REFERENCES + REQUEST_BYTES * MAX_REQUESTS


# ---- Bytes

def two_bytes(number):
    return number.to_bytes(2, "big")


def block(site, sequence, references=(), requests=()):
    """A block's bytes; a reference is a digest, a request is (slot, number)."""
    data = bytes([site]) + two_bytes(sequence) + bytes([len(references), len(requests)])
    data += b"".join(references)
    for slot, number in requests:
        data += bytes([slot]) + two_bytes(number)
    return data


def digest(data):
    """What another block has as its reference to this one, which is bytes or a draft."""
    return hashlib.sha256(bytes(data)).digest()


def setup(sites, owners):
    """How many sites there are, and the owner of each slot."""
    return bytes([sites, *owners])


def arrival(data, verdict=1):
    """A block as the listing reads it, with the link's verdict: 1 if its signature is good."""
    return two_bytes(len(data)) + bytes([verdict]) + data


def dome_arrival(data):
    """A block as dome reads it: there is no verdict."""
    return two_bytes(len(data)) + data


# ---- Campaigns

class Draft:
    """A block that a site builds: it follows another block of the site, its parent, or begins the site's chain."""

    def __init__(self, site, parent=None):
        self.site = site
        self.parent = parent
        self.sequence = parent.sequence + 1 if parent else 0
        self.references = [digest(parent)] if parent else []
        self.requested = []

    def refers_to(self, *others):
        """Refers to these blocks as they are now; one that it refers to already is left out."""
        for reference in map(digest, others):
            if reference not in self.references:
                self.references.append(reference)
        return self

    def requests(self, number, slot):
        self.requested.append((slot, number))
        return self

    def __bytes__(self):
        return block(self.site, self.sequence, self.references, self.requested)


class Campaign:
    """A setup, and blocks in the order in which they arrive."""

    def __init__(self, sites, owners):
        self.setup = setup(sites, owners)
        self.arrivals = []  # of (bytes or a draft, verdict)
        self.newest = {}  # each site's last block, those beside its chain left out

    def arrives(self, data, verdict=1):
        """Any bytes arrive, or a draft: one that is new here, or one that came before."""
        self.arrivals.append((data, verdict))
        return data

    def site(self, site):
        """The site's next block arrives."""
        self.newest[site] = self.arrives(Draft(site, self.newest.get(site)))
        return self.newest[site]

    def fork(self, site):
        """A second block beside the site's newest arrives: it has the same sequence number and the same parent."""
        return self.arrives(Draft(site, self.newest[site].parent))

    def after(self, parent):
        """The block arrives that follows this one; so the other branch of a fork goes on."""
        return self.arrives(Draft(parent.site, parent))

    def stream(self):
        """The campaign as the listing reads it."""
        return self.setup + b"".join(arrival(bytes(data), verdict) for data, verdict in self.arrivals)
