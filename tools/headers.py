"""What the C headers define."""

import re
from pathlib import Path

HOST = Path(__file__).resolve().parents[1] / "host"
TEXT = "".join((HOST / file).read_text(encoding="ascii") for file in ("giangotum.h", "giangotum_core.h"))


def constants():
    """Each constant's value by its name. A constant is a number, or sums and products of numbers and of constants before it."""
    values = {}
    for name, value in re.findall(r"^#define (GT_\w+) (.+)$", TEXT, re.MULTILINE):
        values[name] = eval(value, {"__builtins__": {}}, values)
    return values
