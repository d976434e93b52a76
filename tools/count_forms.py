#!/usr/bin/env python3
"""Counts the older forms in crates/*/src, point by point, and prints each place.

    python3 tools/count_forms.py [POINT..]

Each row of FORMS is a point of docs/DESIGN-PASS.md, a letter, what it finds, and a pattern over a whole file. Comments are left
out. What a pattern finds is a place to look at: the page says what became of each.
"""
import pathlib
import re
import sys

FORMS = [
    # 1: Option and Result by hand, flags beside values, numbers for kinds and refusals
    (1, "a", "a function that answers a bare u8", r"-> u8\b"),
    (1, "b", "a flag or a number beside a value", r"\(usize, bool\)|\(u8, u8, bool\)|\(usize, u8\)|\(M, bool\)"),
    (1, "c", "a kind that is a number", r"\b(?:kind|of): u8\b|const (?:CUE|STILL): u8\b|\bcue: bool\b|\bagain: (?:true|false)\b"),
    (1, "d", "a number that stands for none", r"(?:=>|else \{|return) (?:0|8|99|\(99, 99, false\))\b(?! *\.\.)|unwrap_or\(0\)"),
    (1, "e", "an Err or a None handed on by hand", r"(?:Err\(\w+\)|None) => (?:return )?(?:Err\(|None\b)|Err\(refusal\) => refusal|else \{\s*return (?:Err\(|None)|(?:Err\(\w+|Err\(_)\) => \(\w+, Err"),
    (1, "f", "an own enum of the shape of Result or Option", r"enum (?:Either|Line)\b"),
    (1, "g", "an enum without derived equality", r"#\[derive\((?![^)]*PartialEq)[^)]*\)\]\s*(?:pub )?enum \w+"),
    # 3: loops
    (3, "a", "a loop over a range of indices", r"for \w+ in \(?\w+\.\.[^{]*\{"),
    (3, "b", "a loop that counts beside its items", r"for \([^)]*\) in [^{]*\.enumerate\(\)"),
    (3, "c", "a while or a loop", r"\bwhile\b[^{]*\{|\bloop \{"),
    (3, "d", "a loop over items that searches or folds", r"for (?:&?\w+) in (?!\(?\w+\.\.)(?!\[)[^{]*\{"),
    (3, "e", "an own next that is no Iterator's", r"pub fn next\(&mut self\)"),
    # 4: equality, order, copying, conversion, printing
    (4, "a", "a function that spells a value as text", r"-> &'static str|fn tell_\w+|fn show_field"),
    (4, "b", "a refusal turned into another by hand", r"fn (?:pass|at|under|of_form|by_store|changed|changed_form)\b[<(]"),
    (4, "c", "a number of a refusal", r"fn number\(&self\) -> u8"),
    # 5: facts and parameters
    (5, "a", "a clause that a page has 1,024 bytes", r"length (?:work|page|image)\.(?:old|new|now) ≡ 1024"),
    (5, "b", "a clause that a counter has a next", r"counter \+ 1 < 2 \^ 32"),
    (5, "c", "text, slips and memory handed on together", r"out: &mut String,\s*heap: Global"),
    (5, "d", "a store, its slips and a work page handed on together", r"slips: &(?:mut )?Slips,\s*work: "),
    (5, "e", "a page and a counter handed on together", r"page: &(?:mut )?\[u8\],\s*counter: u32"),
    (5, "f", "a page, a first page and its place handed on together", r"first: FirstPage, q: usize"),
    (5, "g", "a file's bytes and its first page handed on together", r"bytes: &(?:'a )?\[u8\], first: FirstPage"),
    (5, "h", "two lists that are as long as one another", r"length fields\.now ≡ length values\.\w+"),
    # 6: buffers
    (6, "a", "a buffer with a length beside it", r"let n = value\.write\(&mut bytes\)|out: &mut \[u8; 200\]\) -> usize"),
    (6, "b", "parallel lists", r"fields\[bit\]|values\[bit\]"),
    (6, "c", "a sorted list searched by hand", r"fn (?:place\(&self|index_of|index_for)\b"),
    # 7: switches
    (7, "a", "a match that picks the step to run", r"Change::\w+ => |Named::\w+ \{[^}]*\} => |Call::\w+(?: \{[^}]*\})? => "),
]


def code_of(path):
    text = path.read_text()
    return re.sub(r"//[^\n]*", "", text)


def main():
    wanted = [int(a) for a in sys.argv[1:]]
    root = pathlib.Path(__file__).resolve().parent.parent
    total = {}
    for point, letter, what, pattern in FORMS:
        if wanted and point not in wanted:
            continue
        places = []
        for path in sorted(root.glob("crates/*/src/*.rt")):
            code = code_of(path)
            for m in re.finditer(pattern, code):
                line = code.count("\n", 0, m.start()) + 1
                said = " ".join(m.group(0).split())
                places.append(f"    {path.relative_to(root / 'crates')}:{line}: {said}")
        print(f"{point}{letter} {what}: {len(places)}")
        print("\n".join(places))
        total[point] = total.get(point, 0) + len(places)
    for point in sorted(total):
        print(f"point {point}: {total[point]}")


main()
