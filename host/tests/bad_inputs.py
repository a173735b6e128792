"""The cases of bad_inputs.txt."""

from pathlib import Path
from typing import NamedTuple


class Case(NamedTuple):
    name: str
    stream: bytes
    text: str


def bytes_of(word):
    """The bytes of a word: 'aa', or 'aa*32' for 32 of it."""
    digits, _, times = word.partition("*")
    return bytes.fromhex(digits) * int(times or 1)


def cases_of(text):
    cases = []
    for line in text.splitlines():
        word, _, rest = line.partition(" ")
        rest = rest.strip()
        if word == "case":
            cases.append(Case(rest, b"", ""))
        elif word == "in":
            cases[-1] = cases[-1]._replace(stream=cases[-1].stream + b"".join(map(bytes_of, rest.split())))
        elif word == "out":
            cases[-1] = cases[-1]._replace(text=cases[-1].text + rest + "\n")
        elif word and not line.startswith("#"):
            raise ValueError(f"bad_inputs.txt: {line}")
    return cases


CASES = cases_of(Path(__file__).with_name("bad_inputs.txt").read_text(encoding="ascii"))
