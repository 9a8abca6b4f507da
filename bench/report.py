#!/usr/bin/env python3
"""Scripts and pages of a notebook of 10,000 cells, made by nbrun and by Debian's jupyter nbconvert: wall time, processor
time and peak memory. The notebook is made here. nbconvert writes a page with styles and scripts; nbrun's has none."""
import json
import os
import shutil
import subprocess
import sys
import tempfile
import time
from pathlib import Path

TOP = Path(__file__).resolve().parent.parent
CELLS = 10_000


def notebook():
    cells = []
    for i in range(CELLS):
        if i % 5 == 0:
            cells.append({"cell_type": "markdown", "id": f"m{i}", "metadata": {}, "source": [f"## Part {i}\n", "Some *text* of it."]})
            continue
        outputs = [{"name": "stdout", "output_type": "stream", "text": [f"{line} <row> & more\n" for line in range(5)]}]
        cells.append({"cell_type": "code", "execution_count": i, "id": f"c{i}", "metadata": {}, "outputs": outputs,
                      "source": [f"total = summary({i})\n", "print(total)"]})
    kernel = {"display_name": "Python 3", "language": "python", "name": "python3"}
    return {"cells": cells, "metadata": {"kernelspec": kernel, "language_info": {"name": "python", "file_extension": ".py"}},
            "nbformat": 4, "nbformat_minor": 5}


def measure(command, folder):
    """Wall time and processor time in seconds, and peak memory in MB, of a command."""
    began = time.monotonic()
    child = subprocess.Popen(command, cwd=folder, stdout=subprocess.DEVNULL, stderr=subprocess.DEVNULL)
    _, status, used = os.wait4(child.pid, 0)
    if status != 0:
        return None
    return time.monotonic() - began, used.ru_utime + used.ru_stime, used.ru_maxrss / 1024


def show(name, found):
    if found is None:
        print(f"{name}: failed")
    else:
        print(f"{name}: {found[0]:.2f} s, processor {found[1]:.2f} s, {found[2]:.0f} MB")


def main():
    program = subprocess.run([str(TOP / "dist" / "unpack"), "nbrun"], check=True, capture_output=True, text=True).stdout.strip()
    with tempfile.TemporaryDirectory() as folder:
        given = Path(folder) / "in.ipynb"
        given.write_text(json.dumps(notebook()))
        print(f"{CELLS} cells, {given.stat().st_size} octets")
        show("nbrun report script", measure([program, "report", "script", "in.ipynb", "out.txt"], folder))
        show("nbrun report page", measure([program, "report", "page", "in.ipynb", "out.html"], folder))
        if shutil.which("jupyter-nbconvert"):
            for kind in ("script", "html"):
                command = ["jupyter-nbconvert", "--to", kind, "--output", f"other-{kind}", "in.ipynb"]
                show(f"nbconvert --to {kind}", measure(command, folder))
        else:
            print("jupyter-nbconvert isn't here")
    return 0


if __name__ == "__main__":
    sys.exit(main())
