"""Block reading and the control program's lines, written from documents 01 and 02 alone: nothing of the library is used.

As a program it does what dome does: arrivals on standard input, lines on standard output.
"""

import hashlib
import sys
from pathlib import Path
from typing import NamedTuple, Optional, Union

# The examples have a block's sizes and limits.
sys.path.append(str(Path(__file__).resolve().parents[2] / "examples"))
from campaign import HEADER_BYTES, MAX_BLOCK_BYTES, MAX_REFERENCES, MAX_REQUESTS, REFERENCE_BYTES, REQUEST_BYTES

SLOTS = 8


class Request(NamedTuple):
    slot: int
    number: int


class Block(NamedTuple):
    site: int
    sequence: int
    references: list  # of digests
    requests: list  # of Request


class Refusal(NamedTuple):
    number: int
    index: Optional[int] = None


def pieces(data: bytes, size: int) -> list:
    return [data[at:at + size] for at in range(0, len(data), size)]


def read_block(data: bytes) -> Union[Block, Refusal]:
    """The block that the bytes encode, or the first refusal in the order 3, 6, 18, 7."""
    if len(data) < HEADER_BYTES:
        return Refusal(3)
    reference_count, request_count = data[3], data[4]
    requests_at = HEADER_BYTES + REFERENCE_BYTES * reference_count
    if (reference_count > MAX_REFERENCES or request_count > MAX_REQUESTS
            or len(data) != requests_at + REQUEST_BYTES * request_count):
        return Refusal(3)

    references = pieces(data[HEADER_BYTES:requests_at], REFERENCE_BYTES)
    requests = [Request(piece[0], int.from_bytes(piece[1:], "big"))
                for piece in pieces(data[requests_at:], REQUEST_BYTES)]
    for index, request in enumerate(requests):
        if request.slot >= SLOTS or request.number == 0:
            return Refusal(6, index)
    slots = [request.slot for request in requests]
    for index, slot in enumerate(slots):
        if slot in slots[:index]:
            return Refusal(18, index)
    for index, reference in enumerate(references):
        if reference in references[:index]:
            return Refusal(7, index)
    return Block(data[0], int.from_bytes(data[1:3], "big"), references, requests)


def joined(items: list) -> str:
    return ",".join(items) or "-"


def line_of(data: bytes) -> str:
    """The line of an arrival whose block is there."""
    digest = hashlib.sha256(data).hexdigest()
    answer = read_block(data)
    if isinstance(answer, Refusal):
        index = "" if answer.index is None else f" index {answer.index}"
        return f"{digest} refusal {answer.number}{index}"
    references = joined([reference.hex() for reference in answer.references])
    requests = joined([f"{request.slot}:{request.number}" for request in answer.requests])
    return f"{digest} site {answer.site} seq {answer.sequence} references {references} requests {requests}"


def lines_of(stream: bytes) -> list:
    """One line for each arrival of a stream."""
    lines = []
    while stream:
        length = int.from_bytes(stream[:2], "big")
        block, rest = stream[2:2 + length], stream[2 + length:]
        cut = len(stream) < 2 + length
        lines.append("- refusal 3" if cut or length > MAX_BLOCK_BYTES else line_of(block))
        stream = rest
    return lines


def text_of(stream: bytes) -> str:
    """All that the control program writes for a stream."""
    return "".join(line + "\n" for line in lines_of(stream))


if __name__ == "__main__":
    sys.stdout.write(text_of(sys.stdin.buffer.read()))
