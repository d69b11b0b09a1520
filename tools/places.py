#!/usr/bin/env python3
"""Lists the places of older forms in src/, point by point as docs/DESIGN-PASS.md has them.

usage: python3 tools/places.py [--list] [FOLDER]
prints a count for each kind of place in FOLDER (else this repository); --list prints each place too
"""

import glob
import os
import re
import sys

HERE = os.path.dirname(os.path.abspath(__file__))

# Point, what is counted, and the lines of src/ that are such places.
KINDS = [
    ("1a", "a refusal, or a flag, beside what is answered", r"^ +pub (refusal: Refusal|found: bool|accepted: bool|number: u8),"),
    ("1b", "a number for no refusal is tested", r"(if|return|, ).*(\.number|wrong|number|bad|contents|of_group|of_terms|refusal\(rows, most\)) ([!=]= 0|< [0-9])"),
    ("1c", "a refusal is made by its number", r"\brefused\((0|[0-9]+|number|wrong|loaded\.number), |return [1-9][0-9]*;|answer\((0|12|22), |number: (0|18|if)"),
    ("1d", "a number for a class, a side, a right or a call", r"\b(class: (usize|u8)|side: usize|right: u8|call: u8)[,)]"),
    ("1e", "a number of rows for none", r"return book::rows::row_count|Place \{|if many <= other|ClassSums \{ row"),
    ("2", "functions of one shape, by their names", r"fn (least|greater|nearer|u16_at|u32_at|write_u16|write_u32|weighted_bands|commodity_bands|interest_figures|commodity_figures|interest_generals|commodity_general|no_interest|no_commodity|take_book|take_small_book|bought_in|sold_in|gamma_charge|vega_charge|gammas|vegas|one_row|one_left|either|number|read_u16|read_u32|read_u64|list|triple|net_accepted|offset_accepted|net_and_offset_accepted|read_full|amount_of|wide)\("),
    ("3", "a loop that counts an index", r"^ *while "),
    ("4a", "the smaller, the larger or a difference by hand", r"fn (least|greater|nearer|less|apart|both|same_terms|copy_front|write_decimal|wide)\("),
    ("4b", "a widening by `as`", r" as (u64|usize|u32)\b"),
    ("5a", "tables that travel together", r"\b(longs|shorts): &(mut )?\[|\b(specifics|rows): &(mut )?\[u|bought: &\["),
    ("5b", "a fact of a book, a table or columns in a clause", r"requires .*(counts ≡ counts_of book|Accepted book|Taken table|columns\.now ≡ all_columns|CanWriteRows table|CanWrite table)"),
    ("6", "parallel arrays, and a buffer with a length beside it", r"let mut (longs|shorts|bought|sold|issues|places|list) = \[0|^ +pub list: \["),
    ("7", "a switch on a step", r"\b(vega|in_runs): bool|match call \{"),
]


def main():
    words = [w for w in sys.argv[1:] if w != "--list"]
    root = os.path.abspath(words[0]) if words else os.path.join(HERE, "..")
    for point, what, pattern in KINDS:
        found = []
        for path in sorted(glob.glob(os.path.join(root, "crates", "*", "src", "**", "*.rt"), recursive=True)):
            with open(path, encoding="utf-8") as file:
                for number, line in enumerate(file, 1):
                    if not line.lstrip().startswith("//") and re.search(pattern, line):
                        found.append(f"  {os.path.relpath(path, root)}:{number}: {line.strip()}")
        print(f"{point:3} {len(found):4}  {what}")
        if "--list" in sys.argv:
            print("\n".join(found))


main()
