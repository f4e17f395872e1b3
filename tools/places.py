#!/usr/bin/env python3
"""Counts the places of the design pass (docs/DESIGN-PASS.md) in the sources of a checkout.

usage: python3 tools/places.py [FOLDER] [-v]

Goes over crates/*/src/*.rt below FOLDER (here, if none is given) and prints a count for each kind of place, with -v each line too.
A comment line counts nowhere, but for the lines 'Stays (..)', which are counted at the end.
"""
import os
import re
import sys

KINDS = [
    # point, name, pattern of a line
    ("1", "a flag with a value beside it", r"->\s*\(bool,"),
    ("1", "a number for a kind", r"-> u8\b|\bmode: u8\b|\bmode: u8,"),
    ("1", "a default where a value is always there, or a number for none", r"unwrap_or\((0|false)\)|, 256, before"),
    ("2", "a function that says the same as another but for a type, a size or a test (names)",
     r"fn (skip|word_end|keep|names|level|gain_weights|smooth|better|better_ranked|add_all|add_values|close_or_tear|step_answer|run_answer|done_answer|counts|read_values|print_found|search|solve|print|refused|begin|add|close)\b.*[({]"),
    ("3", "a loop that counts an index by hand", r"^\s*(?:'\w+: )?(?:for \w+ in [^{]*\.\.|while )"),
    ("4", "a refusal made by hand", r"Refusal \{(?! check: self, place \})(?!$)|Refusal \{$"),
    ("4", "a byte or a kind of byte by its number", r"(==|<|>|<=|>=) (9|10|13|32|45|48|49|57|99|102|110|112)\b|\b48 \+|\[45,"),
    ("4", "a conversion, an order or a printing written by hand (names)",
     r"fn (at_place|at_clause|step_answer|run_answer|done_answer|outranks|goes_before|number_of|is_end|is_p|is_cnf|is_white|refused|all_sevens|value_at)\b"),
    ("5", "a clause that says what holds of every value of a type",
     r"has_formula (search|self)\.(now|old) ≡ true|\(Made (f|self)\.|\(Sized self|Counted self\.(now|old)|Rows self\.old|length self\.(now|old)\.(rows|clauses|words) ≡"),
    ("6", "a fixed array", r":\s*\[\w+; \d[\d_]*\]"),
    ("7", "a match on what is to be done", r"match (call|question|self) \{"),
]


def lines(top):
    for crate in sorted(os.listdir(os.path.join(top, "crates"))):
        src = os.path.join(top, "crates", crate, "src")
        if not os.path.isdir(src):
            continue
        for name in sorted(os.listdir(src)):
            if name.endswith(".rt"):
                with open(os.path.join(src, name), encoding="utf-8") as file:
                    for number, line in enumerate(file, 1):
                        yield f"{crate}/src/{name}:{number}", line.rstrip("\n")


def main():
    words = [w for w in sys.argv[1:] if w != "-v"]
    found = list(lines(words[0] if words else "."))
    for point, name, pattern in KINDS:
        hits = [(at, line) for at, line in found if not line.lstrip().startswith("//") and re.search(pattern, line)]
        print(f"{point}  {len(hits):4}  {name}")
        if "-v" in sys.argv:
            for at, line in hits:
                print(f"            {at}: {line.strip()[:120]}")
    stays = [(at, line) for at, line in found if re.search(r"// Stays \((rule|speed|proof|no plainer)\):", line)]
    print(f"    {len(stays):4}  lines that say why a place stays")
    if "-v" in sys.argv:
        for at, line in stays:
            print(f"            {at}: {line.strip()}")


main()
