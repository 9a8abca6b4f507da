#!/usr/bin/env python3
"""Lists what the crates say twice, and clauses and definitions that are hard to read.

    bench/repeats.py [--most N] [CRATE..]

Six lists: definitions and lemmas with one statement and one body under several names, lemmas of several files that
say the same but for the names of their variables, functions that differ in names alone, runs of equal lines,
functions with a clause wider than 100 columns, and definitions without a comment. It reads .rt and .antt files, changes nothing and always ends with status 0: a row
is a place to look, and no verdict.
"""
import argparse
import os
import re
from collections import defaultdict
from pathlib import Path

WIDE = 100
RUN = 8
IMPORTS = ("use ", "ghost use ", "pub use", "pub mod", "mod ", "#[tactic", "#[cfg")
DEFINITION = re.compile(r"(?:abbrev |unfoldable |irrelevant )?(?:pub )?(?:record |data )?([^\s:()]+)(?: \([^:]*)? : ")
LEMMA = re.compile(r"(?:irrelevant )?(?:pub )?([^\s:{}()]+)((?: [{(].*?[)}])?) : (.+)", re.S)
BINDER = re.compile(r"[({]([\w\s'ℓ]+) : ([^(){}]*(?:\([^()]*\)[^(){}]*)*)[)}]")
FUNCTION = re.compile(r"\s*(?:pub(?:\(crate\))? )?fn (\w+)")


def files(crates, suffix, *folders):
    """The files with that ending in these folders of the crates, in order."""
    for crate in crates:
        for folder in folders:
            yield from sorted((crate / folder).rglob(f"*{suffix}"))


def renumbered(text, names):
    """The text with each of these names replaced by a number, in the order in which they come."""
    places = {}
    for word in re.findall(r"[\w'\-]+", text):
        if word in names:
            places.setdefault(word, f"v{len(places)}")
    return re.sub(r"[\w'\-]+", lambda found: places.get(found.group(0), found.group(0)), text)


def clause_of(name, block):
    """A clause of a definition, its own name and those of its variables taken away."""
    text = re.sub(r"\s+", " ", re.sub(r"--[^\n]*", "", block)).strip()
    head = text[len(name):].partition(" = ")[0]
    bound = " ".join(found.group(1) for found in re.finditer(r"λ ([^.]*)\.", text))
    text = re.sub(rf"(?<![\w.-]){re.escape(name)}(?![\w-])", "ITSELF", text)
    return renumbered(text, {word for word in re.findall(r"[\w']+", head + " " + bound) if word[0].islower()})


def equal_definitions(crates):
    """Groups of definitions and lemmas that differ in their name and those of their variables alone."""
    groups = defaultdict(list)
    for path in files(crates, ".antt", "proofs", "specs"):
        blocks = re.split(r"\n(?=\S)", path.read_text())
        for at, block in enumerate(blocks):
            found = re.match(r"(?:abbrev |unfoldable |irrelevant )?(?:pub )?([^\s:]+) : (.+)", block.strip(), re.S)
            if not found or block.startswith(IMPORTS + ("--",)):
                continue
            name, text = found.group(1), spoken(found.group(2))
            for clause in blocks[at + 1:]:
                if not clause.startswith((name + " ", name + "=")):
                    break
                text += " | " + clause_of(name, clause)
            if len(text) > 45 and " | " in text:
                groups[text].append(f"{path}:{name}")
    return sorted((group for group in groups.values() if len(group) > 1), key=len, reverse=True)


def functions_in(path):
    """Pairs of the number of its first line and the lines of each function of a .rt file that has a body."""
    lines = path.read_text().splitlines()
    for at, line in enumerate(lines):
        if FUNCTION.match(line):
            end = line[:len(line) - len(line.lstrip())] + "}"
            for below in range(at, len(lines)):
                if lines[below] == end:
                    yield at + 1, lines[at:below + 1]
                    break


def equal_functions(crates):
    """Groups of functions that differ in their name and those of their variables alone."""
    groups = defaultdict(list)
    for path in files(crates, ".rt", "src"):
        for number, lines in functions_in(path):
            name = FUNCTION.match(lines[0]).group(1)
            text = " ".join(line.strip() for line in lines if not line.strip().startswith("//"))
            text = re.sub(r"^pub(?:\(crate\))? ", "", text)
            text = re.sub(r"(?<=[{( ])[a-z_]+\.(?=[a-z_]+ [\w(])", "", text)
            bound = re.findall(r"(\w+): |let (?:mut )?(\w+)|for (\w+) in|\|(\w+)\||λ (\w+)\.", text)
            text = renumbered(text, {word for words in bound for word in words} | {name})
            if len(text) > 110:
                groups[text].append(f"{path}:{number}:{name}")
    return sorted((group for group in groups.values() if len(group) > 1), key=len, reverse=True)


def spoken(statement):
    """The statement without the types of its variables, each variable named by the order in which it comes."""
    text = re.sub(r"\s+", " ", re.sub(r"--[^\n]*", "", statement))
    variables = {name for found in BINDER.finditer(text) for name in found.group(1).split()}
    return renumbered(re.sub(r"(\s*→\s*)+", " → ", BINDER.sub(" ", text)).strip(" →"), variables)


def blocks_of(text):
    """The top-level blocks of a file; those within a module's parameters count as such."""
    for block in re.split(r"\n(?=\S)", text):
        if block.startswith("module "):
            yield from re.split(r"\n  (?=\S)", block)[1:]
        else:
            yield block


def same_statements(crates):
    """Groups of lemmas in several files of proofs/ that say one thing, but for the names and types of variables."""
    groups = defaultdict(list)
    for crate in crates:
        for path in sorted((crate / "proofs").glob("*.antt")):
            for block in blocks_of(path.read_text()):
                found = LEMMA.match(block.strip())
                said = spoken(found.group(2) + " → " + found.group(3)) if found else ""
                if "≡" in said and "Type 0" not in said:
                    groups[said].append((path, found.group(1)))
    several = [group for group in groups.values() if len({path for path, _ in group}) > 1]
    return sorted(([f"{path}:{name}" for path, name in group] for group in several), key=len, reverse=True)


def code_lines(path):
    """Pairs of a line, its spaces folded, and its number; imports and lone brackets are left out."""
    for number, line in enumerate(path.read_text().splitlines(), 1):
        text = re.sub(r"\s+", " ", line.strip())
        if text and text not in ("{", "}", ")", "(", "},") and not text.startswith(IMPORTS):
            yield text, number


def equal_runs(crates, suffix):
    """Triples of a length and two places that share a run of so many equal lines, the longest first."""
    texts = {path: list(code_lines(path)) for path in files(crates, suffix, "src", "specs", "proofs")}
    starts = defaultdict(list)
    for path, lines in texts.items():
        for at in range(len(lines) - RUN + 1):
            starts[tuple(text for text, _ in lines[at:at + RUN])].append((path, at))
    seen, rows = set(), []
    for places in starts.values():
        for one, (p, i) in enumerate(places):
            for q, j in places[one + 1:]:
                if (p, i, q, j) in seen:
                    continue
                length = 0
                while (i + length < len(texts[p]) and j + length < len(texts[q])
                       and texts[p][i + length][0] == texts[q][j + length][0] and (p != q or i + length < j)):
                    seen.add((p, i + length, q, j + length))
                    length += 1
                if length >= RUN:
                    rows.append((length, f"{p}:{texts[p][i][1]}", f"{q}:{texts[q][j][1]}"))
    return sorted(rows, reverse=True)


def wide_clauses(crates):
    """Triples of a width, a place and a name for each function with a clause that is too wide."""
    rows = []
    for path in files(crates, ".rt", "src"):
        lines = path.read_text().splitlines()
        for number, line in enumerate(lines):
            found = FUNCTION.match(line)
            widest, in_clauses = 0, False
            for below in lines[number + 1:number + 80] if found else []:
                text = below.strip()
                if re.match(r"\{\}?$", text) or below.endswith(";"):
                    break
                in_clauses = in_clauses or text.startswith(("ensures", "requires"))
                if in_clauses and not text.startswith("//"):
                    widest = max(widest, len(below))
            if widest > WIDE:
                rows.append((widest, f"{path}:{number + 1}", found.group(1)))
    return sorted(rows, reverse=True)


def silent_definitions(crates):
    """Places and names of definitions in specs/ with no comment above or beside them."""
    rows = []
    for path in files(crates, ".antt", "specs"):
        lines = path.read_text().splitlines()
        for number, line in enumerate(lines):
            found = DEFINITION.match(line)
            if not found or line.startswith((" ", "use", "pub use", "--")):
                continue
            if "--" not in line and not (number and lines[number - 1].startswith("--")):
                rows.append((f"{path}:{number + 1}", found.group(1)))
    return rows


def show(title, rows, most):
    print(f"{title}: {len(rows)}")
    for row in rows[:most]:
        print("  " + " ".join(str(part) for part in row))


def main():
    words = argparse.ArgumentParser(description=__doc__.splitlines()[0])
    words.add_argument("--most", type=int, default=8, help="rows of each list (8 if left out)")
    words.add_argument("crates", nargs="*", help="names of crates (all if left out)")
    asked = words.parse_args()
    os.chdir(Path(__file__).resolve().parent.parent)
    crates = [Path("crates", name) for name in asked.crates] or sorted(path for path in Path("crates").iterdir() if path.is_dir())
    show("groups of equal definitions and lemmas", equal_definitions(crates), asked.most)
    show("groups of lemmas that say the same", same_statements(crates), asked.most)
    show("groups of equal functions", equal_functions(crates), asked.most)
    for suffix in (".rt", ".antt"):
        show(f"runs of {RUN} or more equal lines in {suffix} files", equal_runs(crates, suffix), asked.most)
    show(f"functions with a clause over {WIDE} columns", wide_clauses(crates), asked.most)
    show("definitions without a comment", silent_definitions(crates), asked.most)


if __name__ == "__main__":
    main()
