#!/usr/bin/env python3
"""Notebooks prepared beside python3's nbformat, read and written: times and peak memory as ratios.

The inputs are made here: 10,000 cells with outputs and 100 cells with pictures, near 32 MiB each; and 50,000 and 100,000 small
cells, whose times show that distinct ids cost no square. Where no python3 has nbformat, its `json` alone is measured.
"""
import base64
import json
import os
import random
import subprocess
import sys
import tempfile
import time
from pathlib import Path

import common

NBRUN = common.TOP / "nbrun"
BESIDE = """
import json, sys
try:
    import nbformat
except ImportError:
    nbformat = None
if nbformat:
    nbformat.write(nbformat.read(sys.argv[1], as_version=4), sys.argv[2])
else:
    with open(sys.argv[1]) as f:
        tree = json.load(f)
    with open(sys.argv[2], "w") as f:
        json.dump(tree, f, ensure_ascii=False, indent=1, sort_keys=True)
"""


def python():
    """A python3 that has nbformat, if there is one, and whether it has."""
    for program in ("/usr/bin/python3", sys.executable):
        if os.path.exists(program) and subprocess.run([program, "-c", "import nbformat"], capture_output=True).returncode == 0:
            return program, True
    return sys.executable, False


def code(number, outputs):
    return {"cell_type": "code", "execution_count": number, "id": f"cell{number}", "metadata": {}, "outputs": outputs,
            "source": [f"total = summary({number})\n", "print(total)"]}


def stream(size):
    return {"name": "stdout", "output_type": "stream", "text": [f"{i:8d} a line of output\n" for i in range(size)]}


def picture(size):
    data = base64.b64encode(random.Random(1).randbytes(size)).decode()
    return {"data": {"image/png": data, "text/plain": ["<Figure size 640x480 with 1 Axes>"]}, "metadata": {},
            "output_type": "display_data"}


def notebook(cells):
    return {"cells": cells, "metadata": {"kernelspec": {"display_name": "Python 3", "language": "python", "name": "python3"}},
            "nbformat": 4, "nbformat_minor": 5}


def least(command, times=3):
    """The least time in milliseconds and the least peak memory in bytes."""
    found = []
    for _ in range(times):
        start = time.perf_counter()
        pid = os.fork()
        if pid == 0:
            os.dup2(os.open(os.devnull, os.O_WRONLY), 1)
            os.execvp(command[0], command)
        _, status, usage = os.wait4(pid, 0)
        if status != 0:
            sys.exit(f"{command} ended with {status}")
        found.append(((time.perf_counter() - start) * 1000, usage.ru_maxrss * 1024))
    return min(ms for ms, _ in found), min(peak for _, peak in found)


def beside(folder, name, tree, program):
    path = Path(folder) / f"{name}.ipynb"
    common.make(path, lambda: json.dumps(tree(), indent=1))
    size = path.stat().st_size
    out = str(path.with_suffix(".out"))
    ours, our_peak = least([str(NBRUN), str(path), out, "--prepare-only"])
    theirs, their_peak = least([program, "-c", BESIDE, str(path), out])
    print(f"{name}: {size / 1e6:.1f} MB, {ours:.0f} ms beside {theirs:.0f} ms, {theirs / ours:.1f} times as fast; "
          f"peak {our_peak / 1e6:.0f} MB beside {their_peak / 1e6:.0f} MB, {our_peak / their_peak:.2f} of it")


def many(folder, count):
    path = Path(folder) / f"{count}.ipynb"
    common.make(path, lambda: json.dumps(notebook([code(i, []) for i in range(count)])))
    ms, _ = least([str(NBRUN), str(path), str(path.with_suffix(".out")), "--prepare-only"])
    print(f"{count} cells: {ms:.0f} ms")


def main():
    program, whole = python()
    print(f"beside nbformat's read and write, by {program}" if whole else "no nbformat here: beside json alone")
    subprocess.run([str(NBRUN), "--version"], check=True)
    with tempfile.TemporaryDirectory() as folder:
        beside(folder, "10,000 cells", lambda: notebook([code(i, [stream(82)]) for i in range(10000)]), program)
        beside(folder, "100 cells with pictures", lambda: notebook([code(i, [picture(250_000)]) for i in range(100)]), program)
        many(folder, 50000)
        many(folder, 100000)


if __name__ == "__main__":
    main()
