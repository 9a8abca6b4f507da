#!/usr/bin/env python3
"""Saves of a run: a notebook of 400 cells is saved 400 times, one cell changed each time, beside a plain program that
writes, syncs, renames and syncs the folder of the same bytes as often. The files lie in the folder that is given, or in
bench/out; what a sync costs depends on its disk."""
import json
import os
import sys
import time
from pathlib import Path

import common

CELLS = 400
LINES = 40
ROUNDS = 3


def notebook(word):
    """The text of a notebook whose cells have printed this word."""
    def cell(i):
        text = [f"{word} {i} {line}\n" for line in range(LINES)]
        stream = {"name": "stdout", "output_type": "stream", "text": text}
        return {"cell_type": "code", "execution_count": i, "id": f"c{i}", "metadata": {}, "outputs": [stream],
                "source": [f"work({i})"]}
    return json.dumps({"cells": [cell(i) for i in range(CELLS)], "metadata": {}, "nbformat": 4, "nbformat_minor": 5})


def plain(folder, data):
    """The milliseconds of as many plain saves of these bytes."""
    out, tmp = folder / "plain.ipynb", folder / "plain.ipynb.tmp"
    start = time.monotonic()
    for _ in range(CELLS):
        with open(tmp, "wb", buffering=0) as file:
            view = memoryview(data)
            while view:
                view = view[file.write(view):]
            os.fsync(file.fileno())
        os.rename(tmp, out)
        fd = os.open(folder, os.O_RDONLY | os.O_DIRECTORY)
        os.fsync(fd)
        os.close(fd)
    return (time.monotonic() - start) * 1000


def main():
    folder = Path(sys.argv[1]) if len(sys.argv) > 1 else common.TOP / "bench" / "out"
    folder.mkdir(parents=True, exist_ok=True)
    first, second, out = folder / "first.ipynb", folder / "second.ipynb", folder / "saved.ipynb"
    first.write_text(notebook("first_"))
    second.write_text(notebook("second"))
    command = [common.program(), "saves", str(first), str(second), str(out)]
    for _ in range(ROUNDS):
        values, peak = common.run(command)
        data = out.read_bytes()
        floor = plain(folder, data)
        ours = values["saves"][0]
        print(f"{CELLS} saves of {len(data) / 1e6:.2f} MB: {ours:.0f} ms, plain {floor:.0f} ms, "
              f"{ours / floor:.2f} times, peak {peak / 1e6:.0f} MB")


if __name__ == "__main__":
    main()
