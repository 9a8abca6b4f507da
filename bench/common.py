"""What the benches share: the program that measures, and a run of a command with its peak memory."""
import os
import resource
import subprocess
import sys
from pathlib import Path

TOP = Path(__file__).resolve().parent.parent
CRATE = TOP / "crates" / "measure"
PROGRAM = CRATE / "out" / "measure"


def processor():
    """What the program is compiled for, as the script `nbrun` has it."""
    flags = set(Path("/proc/cpuinfo").read_text().split())
    return "x86-64-v3" if {"avx2", "bmi1", "bmi2", "f16c", "fma", "abm", "movbe"} <= flags else "x86-64-v2"


def program():
    """The program `measure`, built where it isn't there as it is wanted."""
    subprocess.run(["rt", "run", "--cpu", processor()], cwd=CRATE, check=True, stdout=sys.stderr)
    return str(PROGRAM)


def make(file, text):
    """Writes what `text()` gives to the file, in a process of its own: what this process has held in memory is
    counted into the peak of each command that it starts."""
    pid = os.fork()
    if pid == 0:
        status = 1
        try:
            Path(file).write_text(text())
            status = 0
        finally:
            os._exit(status)
    if os.waitpid(pid, 0)[1] != 0:
        sys.exit(f"{file} was not made")


def run(command):
    """The lines that the command prints as name and numbers, and its peak memory in bytes."""
    read_end, write_end = os.pipe()
    pid = os.fork()
    if pid == 0:
        os.dup2(write_end, 1)
        os.execvp(command[0], command)
    os.close(write_end)
    with os.fdopen(read_end) as lines:
        text = lines.read()
    _, status, usage = os.wait4(pid, 0)
    if status != 0:
        sys.exit(f"{command} ended with {status}")
    values = {line.split()[0]: [float(x) for x in line.split()[1:] if x.replace(".", "").isdigit()] for line in text.splitlines()}
    return values, usage.ru_maxrss * 1024


def least(command, times=3):
    """The least time of each line over some runs, and the least peak."""
    runs = [run(command) for _ in range(times)]
    names = runs[0][0]
    return {name: min(values[name][0] for values, _ in runs) for name in names}, min(peak for _, peak in runs)
