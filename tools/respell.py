#!/usr/bin/env python3
"""Respells this repository's own names of specs/ and proofs/ once, after the kit's port.py, and renames the crate `bytes`.

Definitions and lemmas go to snake case, types with a dash to camel case. Names of src/, goals and what the prover makes keep
theirs. Run it at the top of the repository, once; with --list it only prints what it would rename.
"""
import glob
import os
import re
import subprocess
import sys

OLD_CRATE, NEW_CRATE = "bytes", "octets"  # the kit has a library of the old name
ID = r"[\w\-'’]"
# names that would fall together with another: cases of the worked table, and lemmas with the name of their function
OWN = {"cue-bytes": "cue_case", "still-bytes": "still_case", "saved-slots": "saved_slots_lem", "draft-slots": "draft_slots_lem"}


def antt_files():
    return sorted(glob.glob("crates/*/specs/**/*.antt", recursive=True) + glob.glob("crates/*/proofs/**/*.antt", recursive=True))


def respelt(name):
    if "-" not in name and not re.search(r"[a-z0-9][A-Z]", name):
        return name
    if name[0].isupper():
        if "-" not in name:
            return name
        return "".join(w[:1].upper() + w[1:] for w in name.split("-"))
    out = re.sub(r"([a-z0-9])([A-Z])", lambda m: m.group(1) + "_" + m.group(2).lower(), name)
    return out.replace("-", "_").lower() if out[0].islower() else out


def declared():
    """Names declared at any depth in specs/ and proofs/, and fields of records; but no goal, which its type gives away."""
    names, fields = set(), set()
    for path in antt_files():
        folder_file = os.path.basename(path) in ("Answers.antt", "Invariants.antt", "Proof.antt")
        for line in open(path, encoding="utf-8"):
            if line.lstrip().startswith(("--", "use ", "pub use ", "pub mod ", "mod ", "module ")):
                continue
            m = re.match(r"^( *)((?:abbrev |unfoldable |pub |record |data |ruleset )*)(" + ID + r"+) *((?:[({][^=]*)?)(?<![:]):(?!:)(.*)$", line)
            if not m or " = " in line.split(":")[0]:
                continue
            name, rest = m.group(3), m.group(5)
            if folder_file and re.search(r"\bgoal\.", rest):
                continue
            if name[:1].isdigit() or name in ("where", "let"):
                continue
            inner = m.group(1) == "  " and m.group(2).startswith("pub") and "specs" in path or m.group(1) == "  "
            (fields if inner else names).add(name)
            names.add(name)
    return names, fields


def main():
    names, fields = declared()
    table = {n: OWN.get(n, respelt(n)) for n in names if respelt(n) != n}
    # two names that fall together
    seen = {}
    for old, new in table.items():
        if new in names or new in seen:
            print(f"falls together: {old} and {seen.get(new, new)} -> {new}", file=sys.stderr)
        seen[new] = old
    if "--list" in sys.argv:
        for old in sorted(table):
            print(old, table[old])
        return
    token = re.compile(r"(?<!" + ID[:-1] + r"])(" + "|".join(re.escape(n) for n in sorted(table, key=len, reverse=True)) + r")(?!" + ID[:-1] + r"])")

    def swap(text):
        def one(m):
            before = text[: m.start()]
            if before.endswith("."):  # a field, or a path's last name
                step = re.search(r"(\w[\w\-']*)\.$", before)
                if m.group(1) not in fields and not (step and re.search(r"Rattle\.[\w.]*$", before[-120:].rstrip("."))):
                    return m.group(1)
            return table[m.group(1)]
        return token.sub(one, text)

    paths = antt_files() + sorted(glob.glob("crates/*/src/**/*.rt", recursive=True)) + sorted(glob.glob("crates/*/must-fail/*.edit"))
    for path in paths:
        text = open(path, encoding="utf-8").read()
        new = "\n".join(swap(line) if not path.endswith(".rt") or in_clause(line) else line for line in text.split("\n"))
        new = new.replace(f"Rattle.{OLD_CRATE}.", f"Rattle.{NEW_CRATE}.")
        if path.endswith(".rt"):
            new = re.sub(rf"^(\s*(?:pub )?use ){OLD_CRATE}::", rf"\g<1>{NEW_CRATE}::", new, flags=re.M)
        if new != text:
            open(path, "w", encoding="utf-8").write(new)
    for path in ["README.md"] + sorted(glob.glob("docs/*.md")):
        text = open(path, encoding="utf-8").read()
        new = re.sub(r"`[^`\n]+`", lambda m: swap(m.group(0)), text)
        if new != text:
            open(path, "w", encoding="utf-8").write(new)
    if os.path.isdir(f"crates/{OLD_CRATE}"):
        lines = open("crates.txt", encoding="utf-8").read().split("\n")
        out = []
        for line in lines:
            if not line.startswith("#"):
                line = re.sub(rf"(?<![\w]){OLD_CRATE}(?![\w])", NEW_CRATE, line)
            out.append(line)
        open("crates.txt", "w", encoding="utf-8").write("\n".join(out))
        subprocess.run(["git", "add", "-A", f"crates/{OLD_CRATE}"], check=True)
        subprocess.run(["git", "mv", f"crates/{OLD_CRATE}", f"crates/{NEW_CRATE}"], check=True)


def in_clause(line):
    """A line of a .rt file that holds ghost text: clauses, ghost members and imports, or a comment."""
    return bool(re.search(r"\bghost\b|\brequires\b|\bensures\b|//|#\[tactic", line)) or bool(re.search(r"[λ→≡⊎×≤≢∷ℕ⊥↔]|\{ .* \}", line))


if __name__ == "__main__":
    main()
