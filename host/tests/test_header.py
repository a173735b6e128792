"""Each header by itself compiles as C and as C++, with warnings as errors, and its constants agree with each other."""

import headers
from programs import ROOT, output_of

# Calls of each header, so that what it declares can be used.
HEADERS = {"giangotum.h": "gt_read_block(0, 0).answer.refusal",
           "giangotum_core.h": "gt_in_form(0, 0) + gt_shelf_in_form(0, 0) + (int)gt_arrive(0, 0, 0, 0, 4, 0, 0, 1, 0, 0).ended"
                               " + gt_join(0, 0, 0, 0, 0, 0, 0, 0, 0, 0).refusal + gt_retire(0, 0, 0, 0).refusal"
                               " + gt_take_back(0, 0).refusal"}
WARNINGS = ["-Wall", "-Wextra", "-Wpedantic", "-Werror", "-fsyntax-only"]

# The layouts of docs/FORMATS.md; and the most places that a campaign holds are those that the others' reserved ones leave.
AGREEMENTS = ["GT_TABLE_OWNERS == 1",
              "GT_TABLE_RETIRED == GT_TABLE_OWNERS + GT_SLOTS",
              "GT_TABLE_COUNT == GT_TABLE_RETIRED + 1",
              "GT_TABLE_ROWS == GT_TABLE_COUNT + 1",
              "GT_TABLE_BYTES == GT_TABLE_ROWS + GT_MAX_PLACES * GT_ROW_BYTES",
              "GT_ROW_SITE == GT_DIGEST_BYTES",
              "GT_ROW_SEQUENCE == GT_ROW_SITE + 1",
              "GT_ROW_REFERENCES == GT_ROW_SEQUENCE + 2",
              "GT_ROW_REQUESTS == GT_ROW_REFERENCES + GT_MAX_PLACES / 8",
              "GT_ROW_MARK == GT_ROW_REQUESTS + 2 * GT_SLOTS",
              "GT_ROW_BYTES == GT_ROW_MARK + 1",
              "GT_PART_NUMBERS == GT_SLOTS * GT_RECORD_NUMBERS",
              "GT_RECORDS_NUMBERS == GT_MAX_PLACES * GT_PART_NUMBERS",
              "GT_SHELF_MOST == GT_SHELF_PLACES - (GT_CAMPAIGNS - 1) * GT_SHELF_RESERVED",
              "GT_OUTCOMES_NUMBERS == 2 * GT_SHELF_MOST"]


def compiles(compiler, language, standard):
    for header, call in HEADERS.items():
        # Included twice: its guard holds.
        source = 2 * f'#include "{ROOT / "host" / header}"\n' + f"int main(void) {{ return {call}; }}\n"
        output_of([compiler, "-x", language, f"-std={standard}", *WARNINGS, "-"], source.encode())


def test_c():
    for standard in ["c99", "c11", "c17"]:
        compiles("gcc", "c", standard)


def test_cpp():
    for standard in ["c++11", "c++17"]:
        compiles("g++", "c++", standard)


def expect_equations(equations):
    source = f'#include "{ROOT / "host" / "giangotum_core.h"}"\n' + "".join(f'_Static_assert({e}, "{e}");\n' for e in equations)
    output_of(["gcc", "-x", "c", "-std=c11", *WARNINGS, "-"], source.encode())


def test_the_constants_agree():
    expect_equations(AGREEMENTS)


def test_the_documents_have_the_values_of_the_compiler():
    expect_equations(f"{name} == {value}" for name, value in headers.constants().items())
