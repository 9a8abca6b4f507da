#!/usr/bin/env python3
"""Refuses each request for memory of a run in turn, and says which refusals aren't met.

refuse.py [--row two|batch] [--from N] [--to N] [--step N] [--jobs N] [--program FILE]: the program `refused_runs` makes the run behind a
shim of malloc. At each request the shim forks: the child is refused that one request and goes on by itself, and the parent waits for it
and goes on unrefused. A child has to say `safe`, or `not seen` where the refusal came before the run that is judged began, or while it
was looked over. The shim is made by `cc`. With a FILE that program is taken, and nothing is built. Status 0 where each refusal is met."""
import argparse
import os
import signal
import subprocess
import sys
import tempfile
from collections import Counter
from concurrent.futures import ThreadPoolExecutor
from pathlib import Path

TOP = Path(__file__).resolve().parent.parent
CRATE = TOP / "crates" / "refused_runs"
MET = ("safe", "not seen", "nothing said")
SHIM = r"""
#include <stddef.h>
#include <stdio.h>
#include <stdlib.h>
#include <sys/resource.h>
#include <sys/wait.h>
#include <unistd.h>
extern void *__libc_malloc(size_t), *__libc_calloc(size_t, size_t), *__libc_realloc(void *, size_t), *__libc_memalign(size_t, size_t);
static long seen, first = -1, last, step;
static int report, busy, child;
static void begin(void) {
    char *at = getenv("REFUSE");
    first = strtol(at, &at, 10), last = strtol(at, &at, 10), step = strtol(at, &at, 10), report = strtol(at, &at, 10);
}
/* Whether this is the child, which is refused the request. The parent tells how the child ended and what it said. */
static int forks(void) {
    int ends[2], status = 0;
    char said[64];
    ssize_t size = 0, more;
    if (pipe(ends)) _exit(3);
    pid_t pid = fork();
    if (pid < 0) _exit(3);
    if (!pid) {
        child = 1;
        dup2(ends[1], 1), close(ends[0]), close(ends[1]), close(report);
        struct rlimit most = {60, 60};
        setrlimit(RLIMIT_CPU, &most);
        return 1;
    }
    close(ends[1]);
    while (size < (ssize_t)sizeof said && (more = read(ends[0], said + size, sizeof said - size)) > 0) size += more;
    close(ends[0]);
    waitpid(pid, &status, 0);
    if (size && said[size - 1] == '\n') size--;
    dprintf(report, "%ld %d %.*s\n", seen, WIFEXITED(status) ? WEXITSTATUS(status) : -WTERMSIG(status), (int)size, said);
    return 0;
}
static int refuses(void) {
    if (busy || child) return 0;
    busy = 1;
    if (first < 0) begin();
    seen++;
    int is_refused = seen >= first && seen <= last && (seen - first) % step == 0 && forks();
    busy = 0;
    return is_refused;
}
void *malloc(size_t n) { return refuses() ? NULL : __libc_malloc(n); }
void *calloc(size_t n, size_t m) { return refuses() ? NULL : __libc_calloc(n, m); }
void *realloc(void *p, size_t n) { return refuses() ? NULL : __libc_realloc(p, n); }
void *aligned_alloc(size_t a, size_t n) { return refuses() ? NULL : __libc_memalign(a, n); }
int posix_memalign(void **p, size_t a, size_t n) { if (refuses()) return 12; *p = __libc_memalign(a, n); return *p ? 0 : 12; }
__attribute__((destructor)) static void tell(void) {
    if (!child) dprintf(report, "%ld end\n", seen);
}
"""


def outcome(status, said):
    if status in (-signal.SIGXCPU, -signal.SIGKILL):
        return "no end"
    return said or "nothing said" if status in (0, 1) else f"status {status}"


def sweep(program, shim, row, first, last, step):
    """How many requests the run makes, and what came of each that was refused, by its number."""
    read_end, write_end = os.pipe()
    env = {"LD_PRELOAD": shim, "REFUSE": f"{first} {last} {step} {write_end}"}
    run = subprocess.Popen([program, row], env=env, pass_fds=[write_end], stdout=subprocess.DEVNULL)
    os.close(write_end)
    found, total = {}, None
    with os.fdopen(read_end) as told:
        for line in told:
            number, status, *said = line.rstrip("\n").split(" ", 2)
            if status == "end":
                total = int(number)
            else:
                found[int(number)] = outcome(int(status), said[0] if said else "")
    if run.wait() or total is None:
        sys.exit(f"the run in which nothing is refused ended with status {run.returncode}")
    return total, found


def main():
    words = argparse.ArgumentParser()
    words.add_argument("--row", default="two", choices=["two", "batch"])
    words.add_argument("--from", dest="first", type=int, default=1)
    words.add_argument("--to", dest="last", type=int, default=1 << 40)
    words.add_argument("--step", type=int, default=1)
    words.add_argument("--jobs", type=int, default=os.cpu_count())
    words.add_argument("--program")
    given = words.parse_args()
    if not given.program:
        subprocess.run(["rt", "run", "--", "two"], cwd=CRATE, check=True, stdout=sys.stderr)
    program = given.program or str(CRATE / "out" / "refused_runs")
    with tempfile.TemporaryDirectory() as folder:
        source, shim = Path(folder) / "shim.c", str(Path(folder) / "shim.so")
        source.write_text(SHIM)
        subprocess.run(["cc", "-O2", "-fno-builtin", "-shared", "-fPIC", "-o", shim, str(source)], check=True)
        firsts = [given.first + job * given.step for job in range(given.jobs)]
        with ThreadPoolExecutor(given.jobs) as pool:
            parts = list(pool.map(lambda first: sweep(program, shim, given.row, first, given.last, given.step * given.jobs), firsts))
    total, found = parts[0][0], dict(sorted(pair for _, part in parts for pair in part.items()))
    for number, said in found.items():
        if said not in MET:
            print(f"request {number}: {said}")
    print(f"{given.row}: {total} requests, {len(found)} refused in turn: " + ", ".join(f"{said} {often}" for said, often in Counter(found.values()).most_common()))
    return 0 if set(found.values()) <= set(MET) else 1


if __name__ == "__main__":
    sys.exit(main())
