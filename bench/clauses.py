#!/usr/bin/env python3
"""Says whether each clause that a document names stands in the source.

usage: clauses.py

A document names clauses as `function: clause, clause`, between backticks. The function is a path, as
`gap`, `Slots::take` or `uring_ring::IoUring::split`, whose first part may be a crate. `Type: name`
names a law or another ghost member of a type or a trait, and the clause `ensures` is the one clause
of a function that has no name. Read are crates/NAME/README.md of each crate of crates.txt, where a
path without a crate is looked up in NAME, and README.md and docs/*.md, where it is looked up in all
crates. A method is found in each `impl` and `trait` of its type's name; one of an `impl` of a trait
has that trait's clauses too.

Each clause that isn't found, and each README that is missing, is told; the status is then 1.
"""

import pathlib
import re
import sys

TOP = pathlib.Path(__file__).resolve().parent.parent
CITED = re.compile(r"`([A-Za-z_][\w:]*): (\w+(?:, \w+)*)`")
BLOCK = re.compile(r"(?:pub(?:\(crate\))? )?(impl|trait|struct|enum)\b(.*)")
FUNCTION = re.compile(r"( *)(?:pub(?:\(crate\))? )?(?:const )?fn (\w+)")
CLAUSE = re.compile(r"( +)ensures\*?\s*(\w+)?\s*\{")
GHOST = re.compile(r"    ghost (?!use\b)(\w+)")


class Block:
    """What stands in one `impl`, `trait` or `struct`, or among the free functions of a file."""

    def __init__(self, crate, name="", trait=""):
        self.crate, self.name, self.trait = crate, name, trait
        self.functions = {}  # the names of the clauses of each function
        self.ghosts = set()


def without_generics(text):
    """The text without what stands between angle brackets."""
    kept, depth = "", 0
    for i, sign in enumerate(text):
        if sign == "<":
            depth += 1
        elif sign == ">" and text[i - 1] != "-":
            depth -= 1
        elif depth == 0:
            kept += sign
    return kept


def opened(crate, kind, header):
    """The block that a header opens: `impl Trait for Type`, `impl Type`, `trait Trait: ..`."""
    words = re.split(r"[{(;]|\bwhere\b", without_generics(header))[0].strip()
    if kind != "impl":
        return Block(crate, re.match(r"\w+", words).group())
    trait, _, name = words.rpartition(" for ")
    return Block(crate, name.split("::")[-1].strip(), trait.split("::")[-1].strip())


def blocks_of(crate, file):
    """The blocks of a source file, which is laid out by rt fmt: items begin at the line's start."""
    free = Block(crate)
    blocks, block, function, indent = [free], free, None, ""
    lines = iter(file.read_text(encoding="utf-8").splitlines())
    for line in lines:
        begins = BLOCK.match(line)
        if begins:
            header = begins.group(2)
            while "{" not in header and ";" not in header:
                header += " " + next(lines).strip()
            blocks.append(opened(crate, begins.group(1), header))
            block = free if header.endswith((";", "}")) else blocks[-1]
        elif line.startswith("}"):
            block = free
        elif FUNCTION.match(line):
            indent, name = FUNCTION.match(line).groups()
            function = block.functions.setdefault(name, set())
        elif CLAUSE.match(line):
            deeper, name = CLAUSE.match(line).groups()
            if deeper == indent + "    ":  # else it is a closure's
                function.add(name or "ensures")
        elif GHOST.match(line):
            block.ghosts.add(GHOST.match(line).group(1))
    return blocks


def all_blocks(crates):
    blocks = []
    for crate in crates:
        for file in sorted((TOP / "crates" / crate / "src").rglob("*.rt")):
            if "tests" not in file.stem and "tests" not in file.parts:
                blocks += blocks_of(crate, file)
    return blocks


def clauses_of(path, crate, crates, blocks):
    """All names of clauses and laws that the path has, in a crate or (none) in every one."""
    parts = path.split("::")
    if parts[0] in crates:
        crate, parts = parts[0], parts[1:]
    last, owner = parts[-1], parts[-2] if len(parts) > 1 else ""
    found = set()
    for block in blocks:
        if crate not in (None, block.crate):
            continue
        is_free = not block.name
        if is_free and (owner == "" or owner[0].islower()):
            found |= block.functions.get(last, set())
        if block.name == owner and not is_free:
            found |= block.ghosts if last in block.functions else set()
            found |= block.functions.get(last, set())
            if block.trait and last in block.functions:
                found |= clauses_of(block.trait + "::" + last, None, crates, blocks)
        if block.name == last:
            found |= block.ghosts
    return found


def main():
    lines = (TOP / "crates.txt").read_text(encoding="utf-8").splitlines()
    crates = [line.split(":")[0].split()[0] for line in lines if line.strip() and line[0] != "#"]
    blocks = all_blocks(crates)
    documents = [(crate, TOP / "crates" / crate / "README.md") for crate in crates]
    documents += [(None, TOP / "README.md")]
    documents += [(None, file) for file in sorted((TOP / "docs").glob("*.md"))]
    named = missing = 0
    for crate, file in documents:
        place = file.relative_to(TOP)
        if not file.exists():
            print(f"{place}: missing")
            missing += 1
            continue
        text = re.sub(r"```.*?```", "", file.read_text(encoding="utf-8"), flags=re.DOTALL)
        for path, names in CITED.findall(text):
            found = clauses_of(path, crate, crates, blocks)
            for name in names.split(", "):
                named += 1
                if name not in found:
                    print(f"{place}: no clause {name} of {path}")
                    missing += 1
    print(f"{named} clauses named, {missing} not found")
    return 1 if missing else 0


if __name__ == "__main__":
    sys.exit(main())
