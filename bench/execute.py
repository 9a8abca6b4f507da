#!/usr/bin/env python3
"""Measures whole runs beside nbclient, in turn and in one call: wall time, processor time of the executor without the
kernel's, and peak memory, for 1, 100 and 400 cells, one output of 10 MB, 40,000 flushed prints (none may be lost), and 16
notebooks at once.

execute.py [--rounds N] [--only WORD] [--program nbrun]: it wants Debian's python3-ipykernel and python3-nbclient; run it
by /usr/bin/python3. nbclient writes its notebook once, at its end; nbrun after each cell, with its syncs: the disk's own
floor for so many saves is measured beside, by a plain program that writes, syncs, renames and syncs the folder."""
import argparse
import json
import os
import resource
import subprocess
import sys
import tempfile
import time
from pathlib import Path

TOP = Path(__file__).resolve().parent.parent
KERNELS = "/usr/share/jupyter/kernels"

NBCLIENT = """
import sys, nbformat
from nbclient import NotebookClient
book = nbformat.read(sys.argv[1], 4)
NotebookClient(book, kernel_name="python3", timeout=600, startup_timeout=120).execute()
nbformat.write(book, sys.argv[2])
"""

CASES = {
    "1 cell": ["print(1)"],
    "100 cells": [f"print({i})" for i in range(100)],
    "400 cells": [f"print({i})" for i in range(400)],
    "one output of 10 MB": ["print('x' * 10_000_000)"],
    "40,000 flushed prints": ["for i in range(40_000):\n    print(i, flush=True)"],
}


def notebook(sources):
    cells = [{"cell_type": "code", "execution_count": None, "id": f"c{i}", "metadata": {}, "outputs": [], "source": source}
             for i, source in enumerate(sources)]
    return {"cells": cells, "metadata": {"kernelspec": {"display_name": "p", "language": "python", "name": "python3"}},
            "nbformat": 4, "nbformat_minor": 5}


def measured(command):
    """Status, wall time, the executor's own processor time, and its peak memory. The kernel is a child that the executor
    waits for, or not; its time is never in ru_utime of the executor itself, which is read by a wrapper from its /proc."""
    began = time.monotonic()
    process = subprocess.Popen(command, stdout=subprocess.DEVNULL, stderr=subprocess.PIPE)
    own = peak = 0
    tick = os.sysconf("SC_CLK_TCK")
    while True:
        # The process is left a zombie until its own times are read: they stay in /proc/PID/stat.
        ended = os.waitid(os.P_PID, process.pid, os.WEXITED | os.WNOWAIT | os.WNOHANG)
        try:
            fields = Path(f"/proc/{process.pid}/stat").read_text().rsplit(")", 1)[1].split()
            own = (int(fields[11]) + int(fields[12])) / tick
            for line in Path(f"/proc/{process.pid}/status").read_text().splitlines():
                if line.startswith("VmHWM"):
                    peak = max(peak, int(line.split()[1]) * 1024)
        except OSError:
            pass
        if ended:
            break
        time.sleep(0.01)
    took = time.monotonic() - began
    error = process.stderr.read()
    return process.wait(), took, own, peak, error


def streams(cell):
    return "".join("".join(output.get("text", "")) for output in cell["outputs"])


def wanted(name):
    """What the cells have to say, so that nothing is lost."""
    if name.endswith("cells") or name == "1 cell":
        count = int(name.split()[0])
        return ["1\n"] if count == 1 else [f"{i}\n" for i in range(count)]
    if name.startswith("one output"):
        return ["x" * 10_000_000 + "\n"]
    return ["".join(f"{i}\n" for i in range(40_000))]


def floor(folder, texts):
    """How long the disk takes for so many saves of such texts."""
    began = time.monotonic()
    path = Path(folder) / "floor"
    for text in texts:
        with open(f"{path}.tmp", "wb") as file:
            file.write(text)
            file.flush()
            os.fsync(file.fileno())
        os.rename(f"{path}.tmp", path)
        handle = os.open(folder, os.O_RDONLY)
        os.fsync(handle)
        os.close(handle)
    return time.monotonic() - began


def one(program, name, sources, folder):
    source = Path(folder) / "in.ipynb"
    source.write_text(json.dumps(notebook(sources)))
    rows = {}
    for who, command in (("nbrun", [program, str(source), f"{folder}/nbrun.ipynb", "--kernel-path", KERNELS, "--start-timeout", "120"]),
                         ("nbclient", [sys.executable, "-c", NBCLIENT, str(source), f"{folder}/nbclient.ipynb"])):
        status, took, own, peak, error = measured(command)
        lost = ""
        if status == 0:
            cells = json.loads(Path(f"{folder}/{who}.ipynb").read_text())["cells"]
            if [streams(cell) for cell in cells] != wanted(name):
                lost = " LOST OUTPUT"
        rows[who] = (status, took, own, peak)
        print(f"{name:22} {who:8} status {status} wall {took:7.2f} s, own processor time {own:6.2f} s, peak {peak / 1e6:6.1f} MB{lost}",
              flush=True)
        if status and error:
            print(error.decode(errors="replace")[-300:])
    saved = Path(f"{folder}/nbrun.ipynb")
    if saved.exists():
        text = saved.read_bytes()
        took = floor(folder, [text] * (len(sources) + 1))
        print(f"{name:22} {'disk':8} {len(sources) + 1} saves of the last text: {took:.2f} s", flush=True)


def sixteen(program, folder):
    """16 notebooks of 20 cells at once, by one nbrun and by 16 of nbclient side by side."""
    sources = [f"print({i})" for i in range(20)]
    source = Path(folder) / "in.ipynb"
    source.write_text(json.dumps(notebook(sources)))
    for n in range(16):
        Path(f"{folder}/in{n}.ipynb").write_text(source.read_text())
    jobs = {"jobs": [{"input": f"{folder}/in{n}.ipynb", "output": f"{folder}/{n}.ipynb"} for n in range(16)]}
    (Path(folder) / "jobs.json").write_text(json.dumps(jobs))
    status, took, own, peak, error = measured([program, "--jobs", f"{folder}/jobs.json", "--kernel-path", KERNELS, "--start-timeout", "300"])
    print(f"{'16 notebooks at once':22} nbrun    status {status} wall {took:7.2f} s, own processor time {own:6.2f} s, peak {peak / 1e6:6.1f} MB", flush=True)
    before = resource.getrusage(resource.RUSAGE_CHILDREN)
    began = time.monotonic()
    runs = [subprocess.Popen([sys.executable, "-c", NBCLIENT, str(source), f"{folder}/c{n}.ipynb"], stderr=subprocess.DEVNULL) for n in range(16)]
    statuses = {run.wait() for run in runs}
    after = resource.getrusage(resource.RUSAGE_CHILDREN)
    print(f"{'16 notebooks at once':22} nbclient statuses {statuses} wall {time.monotonic() - began:7.2f} s, processor time with the kernels' "
          f"{after.ru_utime + after.ru_stime - before.ru_utime - before.ru_stime:6.2f} s, in 16 processes", flush=True)


def main():
    parser = argparse.ArgumentParser()
    parser.add_argument("--rounds", type=int, default=1)
    parser.add_argument("--only", default="")
    parser.add_argument("--program", default=str(TOP / "crates" / "nbrun" / "out" / "nbrun"))
    given = parser.parse_args()
    if not os.access(given.program, os.X_OK):
        subprocess.run([str(TOP / "nbrun"), "--version"], check=True)
    for _ in range(given.rounds):
        for name, sources in CASES.items():
            if given.only in name:
                with tempfile.TemporaryDirectory() as folder:
                    one(given.program, name, sources, folder)
        if given.only in "16 notebooks at once":
            with tempfile.TemporaryDirectory() as folder:
                sixteen(given.program, folder)


if __name__ == "__main__":
    main()
