"""make check: it proves the crate that is named, and where none is or another, it says which there are."""

import re

from programs import ROOT, expect, make


def test_a_listed_crate_is_proved():
    for crate in ["base", "c_interface"]:
        ended = make("-n", "check", f"CRATE={crate}")  # only shown, not run
        expect(ended.returncode == 0 and ended.stdout.decode().splitlines()[-1] == f"cd crates/{crate} && rt check", f"{ended}")
    ended = make("check", "CRATE=base")
    expect(ended.returncode == 0 and b"\nlogic=proved " in ended.stdout, f"{ended}")


def test_another_name_is_refused():
    listed = re.findall(r"^(\w+)(?: staticlib)?:", (ROOT / "crates.txt").read_text(encoding="utf-8"), re.MULTILINE)
    for words, crate in [([], ""), (["CRATE=tables"], "tables")]:
        ended = make("check", *words, unset=["CRATE"])
        said = f"make check: CRATE is '{crate}', which is none of: {' '.join(listed)}\n"
        expect(ended.returncode == 2 and ended.stderr.decode().startswith(said) and not ended.stdout, f"{ended}")
