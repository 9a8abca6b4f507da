#!/usr/bin/env python3
"""The readiness loop over a world that costs next to nothing: a turn with 64 connections of which one is awake, and 64 MiB
through one connection, read and written."""
import common

TURNS = 100_000


def main():
    values, peak = common.least([common.program(), "loop", str(TURNS)])
    for name, number in values.items():
        print(f"{name} {number:.0f}")
    print(f"peak {peak / 2**20:.0f} MiB")


if __name__ == "__main__":
    main()
