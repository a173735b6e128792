#!/usr/bin/env python3
"""Brings the repository's own names in antt to one spelling: definitions, lemmas, fields and bound names in snake case; types, facts and modules keep
their capital. It goes by text: of a name that the files of crates/ declare, every use in specs/, proofs/, contracts and must-fail edits is turned, but
for names that a file imports from a library, names of Rattle's code, and text in quotes. It is for the text as the kit's port.py leaves it (docs/PORT.md),
whose proofs are walks; it refuses today's, in which names of Rattle's goals stand.

usage: python3 tools/respell.py            at the top: turns all files below crates/ in place
       python3 tools/respell.py --names    prints each old name and its new one, a tab between, and writes nothing
"""

import collections
import os
import re
import sys

NAME = r"[^\W\d][\w'\-]*(?:[₀-₉]+)?"
TOKEN = re.compile(NAME)
DECLARED = re.compile(rf"^\s*(?:(?:abbrev|unfoldable|pub|data|record|opaque)\s+)*({NAME})\s*(?:\{{[^}}]*\}}\s*)*:(?=\s|$)")
BOUND = re.compile(rf"(?:[({{λ]\s*|\blet\s+)({NAME}(?:\s+{NAME})*)\s*(?::|=|\.\s)")
LAMBDA = re.compile(rf"λ\s*({NAME}(?:\s+{NAME})*)\s*\.")
USE = re.compile(r"^\s*(?:pub\s+)?(?:ghost\s+)?use\s+([^;{\s]+?)(?:\.?\{([^}]*)\}|\s+as\s+(\S+?);?\s*$|;?\s*$)", re.M)
MADE = re.compile(r"^(returns(-\d+)?|loop\d*(-.*)?|invariant-.*|decreases-.*|Need-.*|After-.*|At-.*|In-.*)$")


def crates():
    with open("crates.txt", encoding="utf-8") as f:
        return [m.group(1) for m in (re.match(r"([a-z0-9_]+)[ :]", line) for line in f) if m]


def snake(name):
    """The spelling in snake case, or the name itself where it begins with a capital or has one spelling already."""
    if not name[0].islower() and name[0] != "_":
        return name
    out = re.sub(r"([a-z0-9'₀-₉])([A-Z])", lambda m: m.group(1) + "_" + m.group(2).lower(), name)
    out = out.replace("-", "_")
    return re.sub(r"[A-Z]", lambda m: m.group(0).lower(), out) if out != name else name


def files(*ends):
    for folder, dirs, names in os.walk("crates"):
        dirs[:] = sorted(d for d in dirs if d not in ("out", "data"))
        for n in sorted(names):
            if n.endswith(ends):
                yield os.path.join(folder, n)


def read(path):
    with open(path, encoding="utf-8") as f:
        return f.read()


def without_comments(text, mark):
    return "\n".join(line.split(mark)[0] if line.lstrip().startswith(mark) else line for line in text.split("\n"))


def imported(text, own):
    """Names that a text takes from libraries that are not the repository's."""
    found = set()
    for m in USE.finditer(text):
        parts = m.group(1).split(".")
        if parts[0] == "Rattle" and len(parts) > 1 and parts[1] in own:
            continue
        for entry in (m.group(2) or "").split(","):
            words = entry.split()
            if words:
                found.add(words[-1])
                found.add(words[0])
    return found


def declared():
    """Each name that the files declare, with the files that do so, and those names that are a record's field and nothing else."""
    places = collections.defaultdict(set)
    fields, others = set(), set()
    for path in files(".antt"):
        text = without_comments(read(path), "--")
        record = None
        for line in text.split("\n"):
            indent = len(line) - len(line.lstrip())
            if record is not None and line.strip() and indent <= record:
                record = None
            m = DECLARED.match(line)
            if m:
                places[m.group(1)].add(path)
                (others if record is None else fields).add(m.group(1))
            if re.match(r"\s*(pub\s+)?(abbrev\s+)?record\b.*\bwhere\s*$", line):
                record = indent
            for pattern in (BOUND, LAMBDA):
                for m in pattern.finditer(line):
                    for n in m.group(1).split():
                        places[n].add(path)
                        others.add(n)
            for entry in re.findall(rf"\bas ({NAME})", line):
                places[entry].add(path)
    return places, fields - others


def mapping():
    own = set(crates())
    places, fields = declared()
    spelled = {n: snake(n) for n in places if snake(n) != n and not MADE.match(n)}
    groups = collections.defaultdict(set)
    for n in places:
        groups[spelled.get(n, n)].add(n)
    together = {}
    for new, olds in groups.items():
        if len(olds) > 1:
            together[new] = olds
    # A lemma that would have its definition's name gets `_lem`. A field may share its name with a lemma.
    lemmas = {}
    for new, olds in together.items():
        if any("-" not in n and "_" not in n and n not in fields for n in olds):
            for n in olds:
                if "-" in n:
                    spelled[n] = new + "_lem"
                elif "_" in n:
                    lemmas[n] = new + "_lem"
        elif any("_" in n and n not in fields for n in olds):
            for n in olds:
                if "-" in n:
                    spelled[n] = new + "_lem"
    # So does one that would have the name of a library's word in a file that uses both.
    for path in files(".antt"):
        text = read(path)
        kept = imported(text, own)
        for n in set(TOKEN.findall(text)) - kept:
            if "-" in n and spelled.get(n) in kept:
                spelled[n] += "_lem"
    return own, spelled, lemmas, fields, together


def turn(text, spelled, lemmas, kept, fields, in_code):
    def one(m):
        n = m.group(0)
        if n in kept:
            return n
        after = m.string[m.start() - 1 : m.start()] == "."
        beside = after or m.string[m.end() : m.end() + 1] == "."
        # A step of a walk through the code, which is Rattle's name.
        if after and "-" in n and fields is not None and n not in fields:
            return n
        if n in lemmas and not in_code and not beside:
            return lemmas[n]
        return spelled.get(n, n)

    out = []
    for line in text.split("\n"):
        # Quoted text stays.
        parts = re.split(r'("(?:[^"\\]|\\.)*")', line) if in_code else [line]
        mark = "//" if in_code else "--"
        if line.lstrip().startswith(mark):
            # In prose a name with a dash is a name only in backticks.
            turned = re.sub(r"`[^`]*`", lambda m: TOKEN.sub(one, m.group(0)), line)
            turned = TOKEN.sub(lambda m: one(m) if re.search(r"[a-z][A-Z]", m.group(0)) and "-" not in m.group(0) else m.group(0), turned)
            out.append(turned)
            continue
        out.append("".join(p if p.startswith('"') and in_code else TOKEN.sub(one, p) for p in parts))
    return "\n".join(out)


def main():
    if any(os.path.basename(path) == "Answers.antt" for path in files(".antt")):
        sys.exit("respell.py: the proofs below crates/ are answers to goals, so the names were turned before")
    own, spelled, lemmas, fields, together = mapping()
    if sys.argv[1:] == ["--names"]:
        for n, new in sorted({**spelled, **lemmas}.items()):
            print(n + "\t" + new)
        for new, olds in sorted(together.items()):
            print("together\t" + new + "\t" + " ".join(sorted(olds)), file=sys.stderr)
        return
    for path in list(files(".antt", ".rt", ".edit")):
        text = read(path)
        kept = imported(text, own)
        walk = fields if path.endswith("/Proof.antt") else None
        new = turn(text, spelled, lemmas, kept, walk, path.endswith((".rt", ".edit")))
        clash = sorted(n for n in kept if n in {spelled.get(t) for t in TOKEN.findall(text) if t not in kept})
        if clash:
            print("a library's name too: " + path + ": " + " ".join(clash), file=sys.stderr)
        if new != text:
            with open(path, "w", encoding="utf-8") as f:
                f.write(new)


if __name__ == "__main__":
    main()
