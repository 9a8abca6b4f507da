#!/usr/bin/env python3
"""Runs the commands of docs/GUIDE.md as they stand, in the folder of the clone, and says which of them say something else
than the guide shows. A block marked `sh` is run, and the `text` block right after it is what it has to say; `text in any
order` compares lines without their order; `sh elsewhere` is for another machine and left out. A block whose command names
a program or a kernel that isn't installed here is left out too, and named. Status 0 where none differs.

guide.py [--list] [WORD]: --list only lists the blocks; with a WORD only blocks that have it are run."""
import re
import shutil
import subprocess
import sys
from collections import Counter
from pathlib import Path

TOP = Path(__file__).resolve().parent.parent
GUIDE = TOP / "docs" / "GUIDE.md"
BLOCK = re.compile(r"^```([^\n]*)\n(.*?)^```\n", re.M | re.S)

# What a command needs that may not be here: a word of the command, and a test for it.
NEEDS = {
    "parallel": lambda: shutil.which("parallel"),
    "/usr/share/jupyter/kernels": lambda: Path("/usr/share/jupyter/kernels/python3").exists(),
    "plot.ipynb": lambda: subprocess.run(["/usr/bin/python3", "-c", "import matplotlib"], capture_output=True).returncode == 0,
}


def blocks():
    """The commands with the line where they stand, whether they are for here, what they have to say, and how it is compared."""
    text = GUIDE.read_text()
    found = list(BLOCK.finditer(text))
    for at, block in enumerate(found):
        kind, _, rest = block[1].partition(" ")
        if kind != "sh":
            continue
        wanted = how = None
        if at + 1 < len(found) and found[at + 1][1].startswith("text") and not text[block.end():found[at + 1].start()].strip():
            wanted, how = found[at + 1][2], found[at + 1][1]
        yield text[:block.start()].count("\n") + 1, block[2], rest != "elsewhere", wanted, how


def missing(command):
    return [word for word, is_here in NEEDS.items() if word in command and not is_here()]


def differs(wanted, how, said):
    if wanted is None:
        return False
    if how == "text in any order":
        return Counter(wanted.splitlines()) != Counter(said.splitlines())
    return wanted != said


def build():
    """Both programs are built before, so that what the builds say isn't compared."""
    for name, word in (("nbrun", "--version"), ("toy_kernel", "--about")):
        subprocess.run([str(TOP / name), word], check=True, stdout=sys.stderr)


def main():
    words = [word for word in sys.argv[1:] if word != "--list"]
    chosen = [block for block in blocks() if all(word in block[1] for word in words)]
    if "--list" in sys.argv:
        for line, command, here, wanted, how in chosen:
            print(f"GUIDE.md:{line}: {'' if here else 'elsewhere: '}{command.splitlines()[0]} -> {how or 'nothing compared'}")
        return 0
    build()
    failed = 0
    for line, command, here, wanted, how in chosen:
        first = command.splitlines()[0]
        lacks = missing(command)
        if not here or lacks:
            print(f"left  GUIDE.md:{line}: {first} ({'for another machine' if not here else 'not here: ' + ', '.join(lacks)})")
            continue
        run = subprocess.run(["sh", "-c", command], cwd=TOP, stdout=subprocess.PIPE, stderr=subprocess.STDOUT, text=True, timeout=300)
        if differs(wanted, how, run.stdout):
            failed += 1
            print(f"DIFFERS GUIDE.md:{line}: {first}\n-- shown\n{wanted}-- said\n{run.stdout}--")
        elif wanted is None and run.returncode:
            failed += 1
            print(f"FAILED GUIDE.md:{line}: {first}: status {run.returncode}\n{run.stdout}")
        else:
            print(f"ok    GUIDE.md:{line}: {first}")
    print(f"{failed} differ")
    return 1 if failed else 0


if __name__ == "__main__":
    sys.exit(main())
