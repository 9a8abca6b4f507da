#!/usr/bin/env python3
"""Whether two runs at once share a port: forty rounds (or as many as the first argument says) of two nbruns with 16
jobs each, whose kernel keeps a copy of its connection file. Needs a built ./nbrun and ./toy_kernel. Status 0 where no
port of a round stands in two files."""
import json
import subprocess
import sys
import tempfile
from pathlib import Path

TOP = Path(__file__).resolve().parent.parent
JOBS = 16


def write_kernel(folder):
    """A kernel that copies its connection file, and is the toy kernel."""
    script = folder / "copy.sh"
    script.write_text(f'#!/bin/sh\ncp "$1" "$1.copy" && exec "{TOP}/toy_kernel" "$1"\n')
    script.chmod(0o755)
    spec = {"argv": [str(script), "{connection_file}"], "display_name": "Toy", "interrupt_mode": "message", "language": "toy"}
    (folder / "kernels" / "toy").mkdir(parents=True)
    (folder / "kernels" / "toy" / "kernel.json").write_text(json.dumps(spec))


def start(folder, run):
    """A run of 16 jobs."""
    jobs = []
    for job in range(JOBS):
        source = folder / f"in-{run}-{job}.ipynb"
        source.write_bytes((TOP / "examples" / "toy.ipynb").read_bytes())
        jobs.append({"input": str(source), "output": str(folder / f"out-{run}-{job}.ipynb")})
    file = folder / f"jobs-{run}.json"
    file.write_text(json.dumps({"jobs": jobs}))
    words = [str(TOP / "nbrun"), "--jobs", str(file), "--kernel-path", str(folder / "kernels")]
    return subprocess.Popen(words, stdout=subprocess.PIPE, stderr=subprocess.PIPE, text=True)


def ports_of(folder):
    """The ports of all kernels of a round."""
    ports = []
    for path in folder.glob("*.copy"):
        connection = json.loads(path.read_text())
        ports += [number for key, number in connection.items() if key.endswith("_port")]
    return ports


def round_is_apart(number):
    with tempfile.TemporaryDirectory() as name:
        folder = Path(name)
        write_kernel(folder)
        runs = [start(folder, run) for run in range(2)]
        ended = [(run.communicate(), run.returncode) for run in runs]
        ports = ports_of(folder)
        twice = sorted({port for port in ports if ports.count(port) > 1})
        statuses = [status for _, status in ended]
        print(f"round {number}: statuses {statuses}, {len(ports)} ports, given twice: {twice or 'none'}", flush=True)
        return statuses == [0, 0] and len(ports) == 2 * JOBS * 5 and not twice


def main():
    rounds = int(sys.argv[1]) if len(sys.argv) > 1 else 40
    apart = [round_is_apart(number) for number in range(rounds)]
    print(f"{sum(apart)} of {rounds} rounds share no port")
    return 0 if all(apart) else 1


if __name__ == "__main__":
    sys.exit(main())
