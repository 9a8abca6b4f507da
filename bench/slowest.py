#!/usr/bin/env python3
"""Lists the modules whose proof took longest in the last check of a crate: where the gate's minutes go.

    bench/slowest.py [--most N] CRATE..

It reads when each file of crates/NAME/out/incremental was written; a module's time is that since the one before. So it is
right for a check from nothing with one job (remove out/incremental, then rt check CRATE --jobs 1). A module NAME.Lts is what the borrow checker
is asked of the function NAME: it grows with the places that are live there times the ways out of it. It changes nothing and always
ends with status 0: a row is a place to look, and no verdict.
"""
import argparse
import os
from pathlib import Path


def written(crate):
    """Pairs of when a module's file was written and its name, in the order in which they were."""
    found = Path("crates", crate, "out", "incremental").rglob("*.oantt")
    return sorted((path.stat().st_mtime, path.name.removesuffix(".oantt")) for path in found)


def times(modules):
    """Pairs of seconds and a module's name, the slowest first."""
    gaps = [(after - before, name) for (before, _), (after, name) in zip(modules, modules[1:])]
    return sorted(gaps, reverse=True)


def main():
    words = argparse.ArgumentParser(description=__doc__, formatter_class=argparse.RawDescriptionHelpFormatter)
    words.add_argument("--most", type=int, default=15)
    words.add_argument("crates", nargs="+", metavar="CRATE")
    asked = words.parse_args()
    os.chdir(Path(__file__).resolve().parent.parent)
    for crate in asked.crates:
        slowest = times(written(crate))
        print(f"{crate}: {len(slowest)} modules, {sum(took for took, _ in slowest):.0f} s")
        for took, name in slowest[:asked.most]:
            print(f"  {took:7.1f} s  {name}")


if __name__ == "__main__":
    main()
