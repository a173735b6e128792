"""tools/install.sh, which `make install` calls: what is put where, and that a C project can use it."""

import os
import re
import shutil
import stat
import tempfile
from contextlib import contextmanager
from pathlib import Path

from programs import ROOT, expect, expect_same_lines, make, output_of, run
from test_examples import ARRIVALS, CAMPAIGNS, EXPECTED, LISTINGS

INSTALL = str(ROOT / "tools" / "install.sh")
MODES = {"include/giangotum.h": 0o644, "include/giangotum_core.h": 0o644,
         "lib/libgiangotum.a": 0o644, "lib/pkgconfig/giangotum.pc": 0o644,
         "bin/giangotum-listing": 0o755, "bin/giangotum-dome": 0o755,
         "share/man/man1/giangotum-listing.1": 0o644, "share/man/man1/giangotum-dome.1": 0o644}

# A block of five bytes is admitted, and refused when it comes again; 88 begins its digest. It uses both headers.
PROGRAM = r"""
#include <giangotum_core.h>
#include <stdio.h>

int main(void)
{
    static uint8_t table[GT_TABLE_BYTES];
    const uint8_t owners[GT_SLOTS] = {0}, block[5] = {0};
    uint8_t digest[GT_DIGEST_BYTES];

    gt_fresh(1, owners, GT_SLOTS, table, sizeof table);
    printf("%d\n", gt_admit(table, sizeof table, block, sizeof block, 1).refusal);
    printf("%d\n", gt_admit(table, sizeof table, block, sizeof block, 1).refusal);
    gt_digest(block, sizeof block, digest, sizeof digest);
    printf("%02x\n", digest[0]);
    return 0;
}
"""


def install(action, prefix, script=INSTALL, destdir=""):
    return run([script, action, str(prefix)], env={**os.environ, "DESTDIR": str(destdir)})


def files_below(folder):
    return {str(path.relative_to(folder)): stat.S_IMODE(path.stat().st_mode) for path in folder.rglob("*") if path.is_file()}


@contextmanager
def installed():
    """A prefix below which everything is installed."""
    with tempfile.TemporaryDirectory() as folder:
        prefix = Path(folder) / "usr"
        ended = install("install", prefix)
        expect(ended.returncode == 0 and not ended.stdout and not ended.stderr, f"{ended}")
        yield prefix


def package_of(prefix):
    """The variables and fields of the pkg-config file, read here: not every machine has pkg-config."""
    found = {}
    for line in (prefix / "lib/pkgconfig/giangotum.pc").read_text(encoding="ascii").splitlines():
        entry = re.fullmatch(r"(\w+)(?:=|: )(.*)", line)
        if entry:
            found[entry[1]] = re.sub(r"\$\{(\w+)\}", lambda name: found[name[1]], entry[2])
    return found


def test_files_and_modes():
    with installed() as prefix:
        expect(files_below(prefix) == MODES, f"{files_below(prefix)}")


def test_a_c_program():
    with installed() as prefix:
        package = package_of(prefix)
        source, program = prefix / "program.c", str(prefix / "program")
        source.write_text(PROGRAM, encoding="ascii")
        output_of(["gcc", "-std=c11", "-Wall", "-Wextra", "-Wpedantic", "-Werror", *package["Cflags"].split(), "-o", program,
                   str(source), *package["Libs"].split()])
        expect(output_of([program]) == "0\n8\n88\n", "another answer")


def test_the_package_has_what_pkg_config_asks_for():
    with installed() as prefix:
        package = package_of(prefix)
        expect({"Name", "Description", "Version"} <= set(package), f"{package}")
        expect(not any("@" in value or "$" in value for value in package.values()), f"{package}")


def test_the_version_has_one_home():
    header = (ROOT / "host" / "giangotum.h").read_text(encoding="ascii")
    numbers = re.findall(r"^#define GT_VERSION_(?:MAJOR|MINOR) (\d+)$", header, re.MULTILINE)
    newest = re.search(r"^## (\d+\.\d+)$", (ROOT / "CHANGELOG.md").read_text(encoding="utf-8"), re.MULTILINE)
    with installed() as prefix:
        expect(package_of(prefix)["Version"] == ".".join(numbers) == newest[1], f"{package_of(prefix)}, {numbers}, {newest}")


def test_the_programs():
    with installed() as prefix:
        expect_same_lines(output_of([str(prefix / "bin/giangotum-listing")], CAMPAIGNS["chain"]), LISTINGS["chain"])
        expect_same_lines(output_of([str(prefix / "bin/giangotum-dome")], ARRIVALS), EXPECTED)


def test_a_folder_to_be_moved():
    with tempfile.TemporaryDirectory() as folder:
        expect(install("install", "/opt/giangotum", destdir=folder).returncode == 0, "not installed")
        prefix = Path(folder) / "opt/giangotum"
        expect(files_below(Path(folder)) == {f"opt/giangotum/{place}": mode for place, mode in MODES.items()},
               f"{files_below(Path(folder))}")
        expect(package_of(prefix)["prefix"] == "/opt/giangotum", "the folder stands in the package file")


def test_uninstall_leaves_what_is_not_ours():
    with installed() as prefix:
        (prefix / "lib/libother.a").touch(mode=0o644)
        for _ in range(2):
            ended = install("uninstall", prefix)
            expect(ended.returncode == 0 and not ended.stderr, f"{ended}")
            expect(set(files_below(prefix)) == {"lib/libother.a"}, f"{files_below(prefix)}")


def test_nothing_is_put_where_nothing_is_built():
    with tempfile.TemporaryDirectory() as folder:
        script, prefix = Path(folder) / "tools/install.sh", Path(folder) / "usr"
        script.parent.mkdir()
        shutil.copy(INSTALL, script)
        ended = install("install", prefix, script=str(script))
        expect(ended.returncode == 1 and b"run make host" in ended.stderr and not prefix.exists(), f"{ended}")


def test_bad_arguments():
    for action, prefix, destdir in [("install", "usr", ""), ("install", "", ""), ("install", "/a|b", ""),
                                    ("install", "/a b", ""), ("remove", "/usr", ""), ("install", "/usr", "package")]:
        ended = install(action, prefix, destdir=destdir)
        expect(ended.returncode == 1 and ended.stderr.startswith(b"install.sh: "), f"{ended}")


def test_make_hands_on_prefix_and_destdir():
    # Only shown, not run: nothing is proved here.
    for words, wanted in [([], "DESTDIR='' tools/install.sh {} '/usr/local'"),
                          (["PREFIX=/opt", "DESTDIR=/package"], "DESTDIR='/package' tools/install.sh {} '/opt'")]:
        for target in ["install", "uninstall"]:
            ended = make("-n", target, *words, unset=["PREFIX", "DESTDIR"])
            last = ended.stdout.decode().splitlines()[-1]
            expect(ended.returncode == 0 and last == wanted.format(target), f"{ended}")
