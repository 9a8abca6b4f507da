#!/usr/bin/env python3
"""Whether memory and descriptors grow, and whether anything is lost, over many batches of 16 jobs one after another.

soak.py [--minutes M] [--cells N] [--kernel NAME --kernel-path DIR]: 10 minutes, 40 cells a notebook, and the toy kernel if
nothing else is said. Each round is one process with 16 jobs; while it runs its peak memory and its descriptors are sampled
20 times a second, and after it each output has to have every output of its cells, no temporary or connection file may be
left, and no kernel. A second part runs one process with long notebooks for the rest of the time, to see that one process
doesn't grow either. Status 0 where nothing was lost and nothing was left."""
import argparse
import json
import os
import subprocess
import sys
import tempfile
import time
from pathlib import Path

TOP = Path(__file__).resolve().parent.parent
PROGRAM = TOP / "crates" / "nbrun" / "out" / "nbrun"
JOBS = 16


def options():
    parser = argparse.ArgumentParser()
    parser.add_argument("--minutes", type=float, default=10)
    parser.add_argument("--cells", type=int, default=40)
    parser.add_argument("--kernel", default="toy")
    parser.add_argument("--kernel-path", default=str(TOP / "examples" / "kernels"))
    return parser.parse_args()


def source(kernel, cell):
    return f'print "{cell}"' if kernel == "toy" else f'print("{cell}")'


def notebook(kernel, cells):
    return {"cells": [{"cell_type": "code", "execution_count": None, "id": f"c{i}", "metadata": {}, "outputs": [],
                       "source": source(kernel, i)} for i in range(cells)],
            "metadata": {"kernelspec": {"display_name": kernel, "name": kernel}}, "nbformat": 4, "nbformat_minor": 5}


def sample(pid, seen):
    """Resident and peak memory in KiB and the open descriptors of a process."""
    try:
        status = dict(line.split(":", 1) for line in Path(f"/proc/{pid}/status").read_text().splitlines() if ":" in line)
        seen.append((time.monotonic(), int(status["VmRSS"].split()[0]), int(status["VmHWM"].split()[0]), len(os.listdir(f"/proc/{pid}/fd"))))
    except (OSError, KeyError):
        pass


def batch(folder, given, cells):
    """One process over 16 jobs: its status, its samples, and what was lost."""
    for n in range(JOBS):
        (folder / f"in{n}.ipynb").write_text(json.dumps(notebook(given.kernel, cells)))
    jobs = {"jobs": [{"input": str(folder / f"in{n}.ipynb"), "output": str(folder / f"{n}.ipynb"), "cwd": str(TOP)} for n in range(JOBS)]}
    (folder / "jobs.json").write_text(json.dumps(jobs))
    seen = []
    with open(folder / "said", "w") as said:
        process = subprocess.Popen([str(PROGRAM), "--jobs", str(folder / "jobs.json"), "--kernel-path", given.kernel_path], cwd=TOP, stdout=said)
        while process.poll() is None:
            sample(process.pid, seen)
            time.sleep(0.05)
    said = (folder / "said").read_text()
    return process.returncode, seen, said, lost(folder, cells) + left(folder, process.pid)


def lost(folder, cells):
    faults = []
    for n in range(JOBS):
        try:
            made = json.loads((folder / f"{n}.ipynb").read_text())
        except (OSError, ValueError) as e:
            faults.append(f"{n}: {e}")
            continue
        for i, cell in enumerate(made["cells"]):
            texts = "".join("".join(o.get("text", "")) for o in cell["outputs"])
            if texts != f"{i}\n" or cell["metadata"]["papermill"]["status"] != "completed":
                faults.append(f"{n}: cell {i}: {texts!r}")
    return faults


def left(folder, pid):
    """Files beside the outputs, and kernels whose parent was this process."""
    files = [file.name for file in folder.iterdir() if ".nbrun-" in file.name]
    kernels = []
    for entry in Path("/proc").glob("[0-9]*/environ"):
        try:
            if f"JPY_PARENT_PID={pid}\0".encode() in entry.read_bytes():
                kernels.append(entry.parent.name)
        except OSError:
            pass
    return [f"left: {name}" for name in files] + [f"kernel left: {name}" for name in kernels]


def main():
    given = options()
    subprocess.run([str(TOP / "nbrun"), "--version"], check=True, stdout=sys.stderr)
    subprocess.run([str(TOP / "toy_kernel"), "--about"], check=True, stdout=sys.stderr)
    end = time.monotonic() + given.minutes * 60
    faults, peaks, most, rounds, lines = [], [], [], 0, 0
    with tempfile.TemporaryDirectory() as folder:
        while time.monotonic() < end:
            status, seen, said, wrong = batch(Path(folder), given, given.cells)
            rounds += 1
            lines += said.count("\n")
            faults += [f"round {rounds}: {fault}" for fault in wrong] + ([f"round {rounds}: status {status}"] if status else [])
            if seen:
                peaks.append(max(s[2] for s in seen))
                most.append(max(s[3] for s in seen))
        print(f"{rounds} rounds of {JOBS} jobs with {given.cells} cells, {lines} lines said")
        if peaks:
            print(f"peak memory of a process: {min(peaks)} to {max(peaks)} KiB; descriptors at most {min(most)} to {max(most)}")
        status, seen, said, wrong = batch(Path(folder), given, given.cells * 10)
        faults += [f"long: {fault}" for fault in wrong] + ([f"long: status {status}"] if status else [])
        if len(seen) > 8:
            quarter = len(seen) // 4
            print(f"one process with {given.cells * 10} cells a job, {seen[-1][0] - seen[0][0]:.0f} s: resident memory after a quarter "
                  f"{seen[quarter][1]}, a half {seen[2 * quarter][1]}, at the end {seen[-1][1]} KiB; descriptors "
                  f"{seen[quarter][3]}, {seen[2 * quarter][3]}, at most {max(s[3] for s in seen)}")
    print("\n".join(faults[:20]) if faults else "nothing was lost, nothing was left")
    return 1 if faults else 0


if __name__ == "__main__":
    sys.exit(main())
