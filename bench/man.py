#!/usr/bin/env python3
"""Whether docs/nbrun.1 says what `./nbrun --help` says: each option with its values and its words, each status with its
words, each example; whether both completions have just its options; and whether no line of the help is wider than 80
columns. With --source the help is read from the program's source. Status 0 where they agree."""
import re
import subprocess
import sys
from pathlib import Path

TOP = Path(__file__).resolve().parent.parent


def help_text():
    if "--source" in sys.argv:
        source = (TOP / "crates" / "nbrun_main" / "src" / "help.rt").read_text()
        return source.split('HELP: &str = "\\\n')[1].split('\n";')[0].replace('\\"', '"') + "\n"
    return subprocess.run([str(TOP / "nbrun"), "--help"], check=True, capture_output=True, text=True).stdout


def plain(text):
    """Words with one space between them, without the marks of roff."""
    text = re.sub(r"\\f[RIBP]", "", text).replace("\\-", "-")
    return " ".join(text.split())


def of_help(text):
    """Options, statuses and examples of the help."""
    options, statuses, examples = {}, {}, []
    head, rest = text.split("\nAfter -- each word")
    for line in head.splitlines():
        known = re.match(r"  (-\S.*?)(?: {2,}| (?=a parameter whose))(\S.*)", line)
        if known:
            last = plain(known[1])
            options[last] = known[2]
        elif line.startswith(" " * 20) and options:
            options[last] += " " + line.strip()
    for number, what in re.findall(r"(\d+) ([^,.]+?)(?=, \d|\.\n|\.$)", plain(rest.split("\nStatus: ")[1])):
        statuses[number] = what
    examples = [line.strip() for line in rest.split("\nExamples:\n")[1].split("\nStatus: ")[0].splitlines()
                if line.startswith("  ")]
    return options, statuses, examples


def of_man(text):
    """The same of the page."""
    options, statuses = {}, {}
    entries = re.findall(r"\.TP\n\.(?:B|BR) (.*)\n((?:(?!\.).*\n)+)", text)
    for name, what in entries:
        name = plain(name.replace('"', ""))
        name = re.sub(r" ?, ?", ", ", name)
        (statuses if name.isdigit() else options)[name] = plain(what)
    examples = [plain(line) for block in re.findall(r"\.nf\n(.*?)\.fi\n", text, re.S) for line in block.splitlines()]
    return options, statuses, examples


def completed(name):
    """The options that a completion offers."""
    text = re.sub(r"#.*|_files -\S+", "", (TOP / "completions" / name).read_text())
    if name == "nbrun.bash":
        text = re.search(r'compgen -W "(--help.*?)" --', text, re.S)[1]
    return set(re.findall(r"(?<![\w-])--?[a-z][a-z_-]*", text))


def main():
    text = help_text()
    wide = [line for line in text.splitlines() if len(line) > 80]
    faults = [f"wider than 80 columns: {line}" for line in wide]
    for name, ours, theirs in zip(("option", "status", "example"), of_help(text), of_man((TOP / "docs" / "nbrun.1").read_text())):
        if not ours:
            faults.append(f"no {name} found in the help")
        if isinstance(ours, list):
            ours, theirs = dict.fromkeys(ours, ""), dict.fromkeys(theirs, "")
        for key in {**ours, **theirs}:
            if ours.get(key) != theirs.get(key):
                faults.append(f"{name} {key}: help {ours.get(key)!r}, page {theirs.get(key)!r}")
    known = set(re.findall(r"(?m)^  (?:nbrun )?(--?[a-z][a-z_-]*)|(?<=[,|] )(--?[a-z][a-z_-]*)", text.split("\nAfter -- each word")[0]))
    known = {name for pair in known for name in pair if name}
    for name in ("nbrun.bash", "_nbrun"):
        faults += [f"completions/{name}: {option} is in one of it and the help" for option in sorted(known ^ completed(name))]
    print("\n".join(faults) if faults else "the page and the help agree")
    return 1 if faults else 0


if __name__ == "__main__":
    sys.exit(main())
