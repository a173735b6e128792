#!/usr/bin/env python3
"""Draws the README's pictures beside this file: layers.svg from crates.txt, campaign.svg from an example and its listing.

    pictures.py           writes them
    pictures.py --check   writes nothing, and fails where a stored picture is not the one that is drawn
"""

import hashlib
import re
import sys
import textwrap
from html import escape
from pathlib import Path
from typing import NamedTuple

HERE = Path(__file__).resolve().parent
ROOT = HERE.parent
EXAMPLE = ROOT / "examples" / "four_sites.campaign"

# The host tests have a reader of blocks.
sys.path.append(str(ROOT / "host" / "tests"))
from reference import Block, read_block


# ---- SVG

WIDTH = 900
MARGIN = 16
LINE = 15  # from one line of text to the next

STYLE = """
text { font: 12px system-ui, sans-serif; fill: #1f2328; text-anchor: middle }
.name, .fork, .delivery, .corner { font-weight: bold }
.name { font-size: 13px }
.note { text-anchor: start }
.corner, .corner-note { text-anchor: end }
text.fork { fill: #b42318 }
text.delivery { fill: #0b6b35 }
.crates { fill: #f3f6f9 }
.host { fill: #fbf1dc }
.proved { fill: #dcebfa; stroke: #2f6097 }
.tested { fill: #f3d9a4; stroke: #8a5a00 }
.block { fill: #f3f6f9; stroke: #57606a }
rect.fork { fill: #fdecea; stroke: #b42318; stroke-width: 2; stroke-dasharray: 5 3 }
rect.delivery { fill: #e3f5e9; stroke: #0b6b35 }
.arrow { fill: none }
"""
DARK, LIGHT = "#57606a", "#8b95a1"  # of arrows


class Box(NamedTuple):
    """A rectangle by its middle and its size."""
    x: float
    y: float
    width: float
    height: float

    def turned(self):
        """With x and y exchanged."""
        return Box(self.y, self.x, self.height, self.width)


def number(value):
    return f"{round(value, 1):g}"


def rectangle(box, look):
    x, y, width, height = map(number, (box.x - box.width / 2, box.y - box.height / 2, box.width, box.height))
    return f'<rect class="{look}" x="{x}" y="{y}" width="{width}" height="{height}" rx="4"/>'


def text(x, y, look, words):
    """Words with the middle of their letters at this height."""
    return f'<text class="{look}" x="{number(x)}" y="{number(y + 4)}">{escape(words, quote=False)}</text>'


def labelled(box, look, lines):
    """A box with lines of text in it, each a pair of look and words."""
    top = box.y - LINE * (len(lines) - 1) / 2
    return [rectangle(box, look), *(text(box.x, top + LINE * at, *line) for at, line in enumerate(lines))]


def heads(colour):
    return ('<marker id="head" viewBox="0 0 8 8" refX="8" refY="4" markerWidth="7" markerHeight="7" orient="auto">'
            f'<path d="M0 0 8 4 0 8z" fill="{colour}"/></marker>')


def page(height, title, description, shapes, arrows):
    """A whole picture with arrows of this colour. Its ground is white, so that it can be read on a dark page too."""
    size = f'width="{WIDTH}" height="{number(height)}"'
    lines = [f'<svg xmlns="http://www.w3.org/2000/svg" {size} viewBox="0 0 {WIDTH} {number(height)}" role="img"'
             ' aria-labelledby="title description">',
             f'<title id="title">{escape(title, quote=False)}</title>',
             f'<desc id="description">{escape(description, quote=False)}</desc>',
             f"<style>{STYLE}.arrow {{ stroke: {arrows} }}\n</style>",
             f"<defs>{heads(arrows)}</defs>",
             f'<rect {size} fill="#ffffff"/>',
             *shapes,
             "</svg>"]
    return "".join(line + "\n" for line in lines)


# ---- Arrows
#
# Boxes stand in ranks, one rank after the other along x; a rank has its boxes by name. An arrow goes from the left side of a
# box to the right side of a box of an earlier rank.

CLEARANCE = 8  # between an arrow and a box that it passes


def expect_apart(rank):
    """Fails where boxes overlap, as when a crate has come to another layer: it then needs another column."""
    ordered = sorted(rank, key=lambda name: rank[name].y)
    for one, other in zip(ordered, ordered[1:]):
        if rank[other].y - rank[one].y < (rank[one].height + rank[other].height) / 2:
            raise ValueError(f"the boxes of {one} and {other} overlap")


def beside(pairs, end, boxes, apart):
    """How far from the middle of a box's side each arrow has this end: the arrows at a side are so far apart, in the order
    of the boxes at their other ends, and don't cross there."""
    offsets = {}
    for name in boxes:
        here = sorted((pair for pair in pairs if pair[end] == name), key=lambda pair: boxes[pair[1 - end]].y)
        for at, pair in enumerate(here):
            offsets[pair] = apart * (at - (len(here) - 1) / 2)
    return offsets


def clear(y, boxes):
    """The height nearest to y at which an arrow can pass these boxes."""
    beside_boxes = [box.y + side * (box.height / 2 + CLEARANCE) for box in boxes for side in (-1, 1)]
    free = [height for height in [y, *beside_boxes]
            if all(abs(height - box.y) > (box.height + CLEARANCE) / 2 for box in boxes)]
    return min(free, key=lambda height: abs(height - y))


def course(start, end, between):
    """The points of an arrow: its start, where it enters and leaves each rank that it passes, and its end. It passes them
    near the height of its end, so that arrows to one box run side by side."""
    points = [start]
    for boxes in between:
        y = clear(end[1], boxes)
        points += [(max(box.x + box.width / 2 for box in boxes), y), (min(box.x - box.width / 2 for box in boxes), y)]
    return points + [end]


def courses(ranks, pairs, apart):
    """The points of an arrow for each pair of names, from the first to the second."""
    for rank in ranks:
        expect_apart(rank)
    boxes = {name: box for rank in ranks for name, box in rank.items()}
    rank_of = {name: at for at, rank in enumerate(ranks) for name in rank}
    starts, ends = (beside(pairs, end, boxes, apart) for end in (0, 1))
    for pair in pairs:
        (tail, head), (last, first) = ([values[name] for name in pair] for values in (boxes, rank_of))
        yield course((tail.x - tail.width / 2, tail.y + starts[pair]), (head.x + head.width / 2, head.y + ends[pair]),
                     [rank.values() for rank in ranks[last - 1:first:-1]])


def written(letter, *points):
    return letter + " ".join(f"{number(x)} {number(y)}" for x, y in points)


def bend(one, other):
    """From a point to another, level at both."""
    middle = (one[0] + other[0]) / 2
    return written("C", (middle, one[1]), (middle, other[1]), other)


def arrow(points):
    """Bends between ranks, and is straight where it passes one."""
    steps = [written("L", other) if at % 2 else bend(one, other) for at, (one, other) in enumerate(zip(points, points[1:]))]
    return f'<path class="arrow" marker-end="url(#head)" d="{written("M", points[0])}{"".join(steps)}"/>'


# ---- Layers

# What each crate is, and the column in which it stands: chosen so that few arrows cross.
CRATES = {
    "base": (1.375, "numbers, bytes, masks, searches"),
    "sha256": (0.625, "FIPS 180-4"),
    "answer": (1.375, "what a call answers, and its checks"),
    "setup": (2.125, "sites, slots, owners, thresholds"),
    "block": (1.625, "a block's bytes, read and written"),
    "broadcast": (2.75, "one slot's process"),
    "shelf": (0.125, "what waits, and its form"),
    "table": (1.875, "a table's bytes, its form and rules"),
    "admission": (0.75, "a block enters the table"),
    "watch": (2.25, "forks, ancestors"),
    "records": (3, "the record buffer's numbers"),
    "campaigns": (0, "a block arrives, or waits"),
    "build": (0.75, "a site's next block"),
    "take_back": (1.5, "the last block leaves the table"),
    "interpret": (2.25, "what a block says"),
    "join": (3, "two controllers made one"),
    "retire": (1.25, "the oldest block leaves the table"),
    "history": (2.125, "blocks with their ancestors"),
    "vectors": (0.875, "test program"),
    "run": (1.625, "a site's calls and its ledger"),
    "c_interface": (0.375, "the core, digest and reading for C"),
    "report": (1.75, "the listing, step by step"),
    "agreement": (1.75, "the theorem of two sites"),
    "listing": (2.5, "the listing program"),
    "arrival": (0.75, "the promise of arrival"),
    "controller": (0, "what holds of each of several campaigns"),
    "cases": (0.875, "rows of the rules, computed"),
    "joined": (2.5, "what holds of joined controllers"),
}
# What stands in host/, and what it uses.
HOST = {
    "harness": (1.25, "independent model in Rust", ["c_interface", "listing"]),
    "dome.c": (0.375, "control program in C", ["c_interface"]),
}
CRATE_WIDTH, CRATE_HEIGHT = 156, 54
COLUMN = (WIDTH - 4 * MARGIN - CRATE_WIDTH) / 3
LAYER = 90
BEFORE_HOST = 24  # more than between layers
LONGEST_LINE = 22  # characters
TURN = "matrix(0 1 1 0 0 0)"  # exchanges x and y


def read_crates(listed):
    """What each crate uses, the kit's libraries left out: these have no line of their own."""
    lines = re.findall(r"^(\w+)(?: staticlib)?:(.*)$", listed, re.MULTILINE)
    names = [name for name, _ in lines]
    uses = {name: [used for used in others.split() if used in names] for name, others in lines}
    if set(uses) != set(CRATES):
        raise ValueError(f"crates.txt and the table in docs/pictures.py differ in {sorted(set(uses) ^ set(CRATES))}")
    return uses


def reached(uses, name):
    """All that a crate uses, itself or through others."""
    return set(uses[name]).union(*(reached(uses, used) for used in uses[name]))


def needed(uses, name):
    """What a crate uses that does not follow from what else it uses."""
    return [used for used in uses[name] if not any(used in reached(uses, other) for other in uses[name])]


def layer_of(uses, name):
    """How long the longest way is to a crate that uses nothing."""
    return max((layer_of(uses, used) + 1 for used in uses[name]), default=0)


def wrapped(words):
    """One line, or two that are about as long as each other."""
    if len(words) <= LONGEST_LINE:
        return [words]
    tries = (textwrap.wrap(words, width, break_long_words=False) for width in range(1, len(words) + 1))
    lines = next(lines for lines in tries if len(lines) <= 2)
    if max(map(len, lines)) > LONGEST_LINE:
        raise ValueError(f"no room for '{words}'")
    return lines


def crate_box(column, y):
    return Box(2 * MARGIN + CRATE_WIDTH / 2 + COLUMN * column, y, CRATE_WIDTH, CRATE_HEIGHT)


def layer_boxes(uses):
    """The boxes of each layer by name, and at last those of host/."""
    layers = {name: layer_of(uses, name) for name in uses}
    first = 2 * MARGIN + CRATE_HEIGHT / 2
    last = first + LAYER * max(layers.values())
    boxes = [{name: crate_box(CRATES[name][0], first + LAYER * layer) for name in uses if layers[name] == layer}
             for layer in range(max(layers.values()) + 1)]
    return boxes + [{name: crate_box(column, last + LAYER + BEFORE_HOST) for name, (column, _, _) in HOST.items()}]


def ground(boxes, look, notes):
    """The ground of these boxes, with notes in its upper right corner."""
    half = CRATE_HEIGHT / 2 + MARGIN
    top, bottom = min(box.y for box in boxes) - half, max(box.y for box in boxes) + half
    area = Box(WIDTH / 2, (top + bottom) / 2, WIDTH - 2 * MARGIN, bottom - top)
    lines = [("corner", notes[0]), *(("corner-note", note) for note in notes[1:])]
    return [rectangle(area, look),
            *(text(WIDTH - 2 * MARGIN, top + MARGIN + 4 + LINE * at, *line) for at, line in enumerate(lines))]


def layers_in_words(uses):
    """A sentence for each box."""
    told = {name: words for name, (_, words) in CRATES.items()}
    told.update({name: f"{words}, in host/, tested and not proved" for name, (_, words, _) in HOST.items()})
    using = {name: ", ".join(needed(uses, name)) or "no other" for name in uses}
    return " ".join(f"{name}: {told[name]}; uses {using[name]}." for name in uses)


def layers(listed):
    """The picture of a list of crates."""
    uses = read_crates(listed)
    ranks = layer_boxes(uses)
    uses.update({name: used for name, (_, _, used) in HOST.items()})
    turned = [{name: box.turned() for name, box in rank.items()} for rank in ranks]
    pairs = [(name, used) for name in uses for used in needed(uses, name)]

    *crates, host = [list(rank.values()) for rank in ranks]
    shapes = ground(sum(crates, []), "crates", ["crates/: proved", "An arrow goes to what is used;",
                                                "what follows from other arrows is left out."])
    shapes += ground(host, "host", ["host/: tested, not proved"])
    shapes += [f'<g transform="{TURN}">', *map(arrow, courses(turned, pairs, apart=24)), "</g>"]
    for name, box in (item for rank in ranks for item in rank.items()):
        look, words = ("proved", CRATES[name][1]) if name in CRATES else ("tested", HOST[name][1])
        shapes += labelled(box, look, [("name", name), *(("words", line) for line in wrapped(words))])
    height = host[0].y + CRATE_HEIGHT / 2 + 2 * MARGIN
    return page(height, "The crates in layers, and what in host/ uses them", layers_in_words(uses), shapes, DARK)


# ---- The campaign

SETUP_BYTES = 9
BEFORE_BLOCK = 3  # an arrival's length and verdict
BLOCK_WIDTH = 116
HEADING, FIRST_ROW, ROW = 28, 90, 88
LEGEND = ["An arrow goes from a block to each block that it refers to. Time goes from left to right.",
          "Green is what a block delivers, slot: number. Red are two blocks of one site with the same sequence number."]


class Held(NamedTuple):
    """A held block, the places that it refers to, what it delivers, and whether another has its site and sequence number."""
    block: Block
    places: list
    delivered: list  # of slot and number
    forked: bool

    def step(self):
        return self.block.site, self.block.sequence


def read_listing(listing):
    """The refused arrivals, and what is delivered at each place."""
    refused, delivered = set(), {}
    for line in listing.splitlines()[1:]:
        arrival, place, _, _, slot, amendment, refusal = line.split()
        if refusal == "0":
            delivered.setdefault(int(place), []).append((slot, amendment))
        else:
            refused.add(int(arrival))
    return refused, delivered


def arriving(stream):
    """The bytes of each block that arrives."""
    at = SETUP_BYTES
    while at < len(stream):
        end = at + BEFORE_BLOCK + int.from_bytes(stream[at:at + 2], "big")
        yield stream[at + BEFORE_BLOCK:end]
        at = end


def held_blocks(stream, listing):
    """The blocks that are held in the end, in the order of their places."""
    refused, delivered = read_listing(listing)
    admitted = [data for arrival, data in enumerate(arriving(stream)) if arrival not in refused]
    place_of = {hashlib.sha256(data).digest(): place for place, data in enumerate(admitted)}
    blocks = [read_block(data) for data in admitted]
    steps = [(block.site, block.sequence) for block in blocks]
    return [Held(block, [place_of[reference] for reference in block.references], delivered.get(place, []),
                 steps.count(steps[place]) > 1) for place, block in enumerate(blocks)]


def columns(held):
    """The places in order, in groups of which none refers to another of its group."""
    groups = [[]]
    for place, block in enumerate(held):
        if set(block.places) & set(groups[-1]):
            groups.append([])
        groups[-1].append(place)
    return groups


def rows(held):
    """Each block's row: there is one for each site, and below it one for the second block of a fork."""
    steps = [block.step() for block in held]
    branches = [(site, steps[:place].count((site, sequence))) for place, (site, sequence) in enumerate(steps)]
    return [sorted(set(branches)).index(branch) for branch in branches]


def block_lines(block):
    """What stands in a block's box."""
    site, sequence = block.step()
    return [("name", f"site {site}, seq {sequence}"),
            *(("words", f"requests {slot}:{amendment}") for slot, amendment in block.block.requests),
            *[("fork", "fork")] * block.forked,
            *(("delivery", f"{slot}: {amendment}") for slot, amendment in block.delivered)]


def block_boxes(held):
    """The boxes of each column by place."""
    groups, row = columns(held), rows(held)
    left = MARGIN + BLOCK_WIDTH / 2
    apart = (WIDTH - 2 * left) / (len(groups) - 1)
    heights = [14 + LINE * len(block_lines(block)) for block in held]
    return [{place: Box(left + apart * at, FIRST_ROW + ROW * row[place], BLOCK_WIDTH, heights[place]) for place in group}
            for at, group in enumerate(groups)]


def heading(column):
    """The places of a column, over it."""
    places = list(column)
    words = f"place {places[0]}" if len(places) == 1 else f"places {places[0]} to {places[-1]}"
    return text(column[places[0]].x, HEADING, "words", words)


def block_in_words(place, block):
    """A sentence."""
    site, sequence = block.step()
    does = [("requests", [f"{slot}:{amendment}" for slot, amendment in block.block.requests]),
            ("refers to places", [str(other) for other in block.places]),
            ("delivers", [f"{slot}: {amendment}" for slot, amendment in block.delivered])]
    told = "".join(f"; {verb} {', '.join(items)}" for verb, items in does if items)
    return f"Place {place}: site {site}, sequence number {sequence}{', a fork' * block.forked}{told}."


def campaign(stream, listing):
    """The picture of a campaign's blocks, with what a listing says of them."""
    held = held_blocks(stream, listing)
    ranks = block_boxes(held)
    pairs = [(place, other) for place, block in enumerate(held) for other in block.places]

    shapes = [*map(heading, ranks), *map(arrow, courses(ranks, pairs, apart=7))]
    for place, box in (item for rank in ranks for item in rank.items()):
        look = "fork" if held[place].forked else "delivery" if held[place].delivered else "block"
        shapes += labelled(box, look, block_lines(held[place]))
    legend = FIRST_ROW + ROW * max(rows(held)) + 60
    shapes += [text(MARGIN, legend + 18 * at, "note", words) for at, words in enumerate(LEGEND)]
    return page(legend + 18 * len(LEGEND), f"A campaign of {stream[0]} sites: blocks, references and deliveries",
                " ".join(block_in_words(place, block) for place, block in enumerate(held)), shapes, LIGHT)


# ---- Files

def drawn():
    """Each picture's text by its file's name."""
    return {"layers.svg": layers((ROOT / "crates.txt").read_text(encoding="utf-8")),
            "campaign.svg": campaign(EXAMPLE.read_bytes(), EXAMPLE.with_suffix(".listing").read_text(encoding="ascii"))}


def main(arguments):
    if arguments not in ([], ["--check"]):
        sys.exit("usage: pictures.py [--check]")
    for name, picture in drawn().items():
        if not arguments:
            (HERE / name).write_text(picture, encoding="utf-8")
        elif (HERE / name).read_text(encoding="utf-8") != picture:
            sys.exit(f"{name} is not the picture that is drawn")


if __name__ == "__main__":
    main(sys.argv[1:])
