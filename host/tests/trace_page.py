"""Reads docs/TRACE.md: which names it gives, and whether each of them exists in the sources."""

import re
from collections import namedtuple
from functools import lru_cache

from programs import ROOT

CRATES = ROOT / "crates"
TRACE = ROOT / "docs" / "TRACE.md"
EDITS = "must-fail edit"  # the title of the column that names them
SOURCES = [path for folder in ("crates", "host", "examples") for ending in ("antt", "rt", "c", "h", "py", "rs")
           for path in sorted((ROOT / folder).glob(f"**/*.{ending}"))]
CASES = sorted((CRATES / "cases" / "specs").glob("*.antt"))

# A part of a cell or of a paragraph, up to a semicolon: the title of its column, the name with a colon that it may begin with, and
# the other names in it.
Part = namedtuple("Part", "column head names")


# ---- The page

def cells(page):
    """Each cell of each table with the title of its column, but for a row's first, which is a rule in our words; and each line
    beside the tables, without a title."""
    titles, found = [], []
    for line in page.splitlines():
        row = [cell.strip() for cell in line.strip("|").split("|")]
        if not line.startswith("|"):
            titles = []
            found.append(("", line))
        elif not titles:
            titles = row
        else:
            found += zip(titles[1:], row[1:])
    return found


def parts(page):
    found = []
    for column, text in cells(page):
        for part in text.split(";"):
            names = re.findall(r"`([^`]+)`", part)
            has_head = re.match(r"\s*`[^`]+`:", part) is not None
            if names:
                found.append(Part(column, names[0] if has_head else "", names[1:] if has_head else names))
    return found


# ---- The sources

# The words that may stand before a name where it is declared.
DECLARING = r'(?:(?:pub|pub\(crate\)|abbrev|unfoldable|record|data|const|struct|enum|fn|extern "C") +)*'


@lru_cache(maxsize=None)
def declared(path):
    """The functions, definitions, records and fields that a source declares, and further words at the beginnings of its lines."""
    return set(re.findall(rf"^\s*{DECLARING}([\w·'-]+)(?=[\s:(<])", path.read_text(encoding="utf-8"), re.MULTILINE))


@lru_cache(maxsize=None)
def owners(path):
    """What a function of a source may stand behind: its module, its crate, and the types whose methods the source has."""
    types = re.findall(r"^impl(?:<[^{]*?>)? (?:[^{]+ for )?(\w+)", path.read_text(encoding="utf-8"), re.MULTILINE)
    return {path.stem, path.parents[1].name, *types}


@lru_cache(maxsize=None)
def words(path):
    return set(re.findall(r"[\w·'-]+", path.read_text(encoding="utf-8")))


def is_crate(name):
    return (CRATES / name / "src").is_dir()


def is_path(name):
    return "/" in name or re.search(r"\.(antt|rt|c|h|py|rs)$", name) is not None


def files(name):
    """The files that a path may mean: it stands below one of our folders, or is the end of a longer one."""
    folders = [ROOT, CRATES, ROOT / "docs", ROOT / "host" / "tests", ROOT / "examples"]
    return [folder / name for folder in folders if (folder / name).exists()] or [
        path for path in SOURCES if str(path).endswith(f"/{name}")]


def stored_edits():
    return {(path.parents[1].name, path.stem) for path in CRATES.glob("*/must-fail/*.edit")}


# ---- The names

def edits_of(part):
    """The must-fail edits that a part names, as crate and name. Outside their column only those that exist are taken for edits."""
    named = {(part.head, name) for name in part.names} if is_crate(part.head) else set()
    return named if part.column == EDITS else named & stored_edits()


def named_edits(page):
    return {edit for part in parts(page) for edit in edits_of(part)}


def exists(part, name):
    """Whether the sources have a name: behind a file's name that file, behind `cases` its definitions, else any."""
    if (part.head, name) in edits_of(part):
        return (part.head, name) in stored_edits()
    if is_path(name):
        return bool(files(name))
    if "::" in name:
        owner, function = name.split("::")
        return any(function in declared(path) for path in SOURCES if path.suffix == ".rt" and owner in owners(path))
    if part.head == "cases":
        return any(name in declared(path) for path in CASES)
    if is_path(part.head):
        return any(name in words(path) for path in files(part.head))
    if " " in name:  # an expression
        return all(any(word in words(path) for path in SOURCES) for word in re.findall(r"\w+", name))
    return is_crate(name) or any(name in declared(path) for path in SOURCES)


def unknown(page):
    """The names that the sources do not have, each with the title of its column."""
    found = []
    for part in parts(page):
        headless = Part("", "", [])
        names = [(part, name) for name in part.names] + ([(headless, part.head)] if part.head else [])
        found += [f"{part.column}: {name}" for beside, name in names if not exists(beside, name)]
    return found
