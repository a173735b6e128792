"""A reader who meets a name in a definition or a contract finds one definition of it."""

import re
from collections import defaultdict

from programs import ROOT, expect

# What each crate calls its own promises, the causes of its refusals, and its call's answer.
OWN = {"Promises", "Causes", "answer"}
# A definition, and a type of the code, which definitions speak of too.
DEFINITION = re.compile(r"^ *(?:(?:abbrev|unfoldable) pub|pub (?:record|data)|(?:pub )?(?:struct|enum|type)) ([^\s:(<]+)", re.MULTILINE)


def given_twice(sources):
    """The names that more than one of these sources defines, with the sources, which are texts by name."""
    places = defaultdict(list)
    for place, text in sources.items():
        for name in set(DEFINITION.findall(text)) - OWN:
            places[name].append(place)
    return {name: found for name, found in places.items() if len(found) > 1}


def test_a_name_of_the_definitions_is_given_once():
    crates = ROOT / "crates"
    files = sorted([*crates.glob("*/specs/*.antt"), *crates.glob("*/src/*.rt")])
    sources = {str(path.relative_to(crates)): path.read_text(encoding="utf-8") for path in files}
    expect(len(sources) > 150, f"{len(sources)} files")
    expect(not given_twice(sources), f"{given_twice(sources)}")


def test_a_name_that_is_given_twice_is_found():
    row = "pub record Row : Type 0 where\n  pub site : ℕ\n"
    function = "module _ (s : ℕ) where\n  abbrev pub row : ℕ\n  row = s\n"
    expect(given_twice({"a": row, "b": row, "c": function}) == {"Row": ["a", "b"]}, "a record")
    expect(given_twice({"a": function, "b": row, "c": function}) == {"row": ["a", "c"]}, "a function")
    expect(given_twice({"a": row, "b": function, "c": "pub struct Row {\n"}) == {"Row": ["a", "c"]}, "a type of the code")
