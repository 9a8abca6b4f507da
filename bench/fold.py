#!/usr/bin/env python3
"""The fold of messages into outputs: streams and updates of one display over 100 cells, twice as many and twice the
cells beside them, what taking one stream costs with 10 and with 10,000 outputs of one display in the notebook, and
updates of one display that very many cells show."""
import common

COUNT = 20000
CELLS = 100
TAKES = 400000


def fold(program, count, cells):
    """The microseconds of the fold."""
    times, peak = common.least([program, "fold", str(count), str(cells)])
    print(f"{count} streams and {count} updates of one display over {cells} cells: {times['fold'] / 1000:.1f} ms, "
          f"their outputs {times['outputs'] / 1000:.1f} ms, peak {peak / 1e6:.0f} MB")
    return times["fold"]


def stream(program, outputs):
    """The nanoseconds that one stream takes beside so many outputs."""
    times, _ = common.least([program, "takes", str(outputs), str(TAKES)], times=5)
    each = times["take"] * 1000 / TAKES
    print(f"a stream taken beside {outputs} outputs: {each:.0f} ns")
    return each


def updates(program, cells, count):
    """The microseconds of so many updates, each of which touches an output of every cell."""
    times, _ = common.least([program, "updates", str(cells), str(count)])
    each = times["take"] * 1000 / (cells * count)
    print(f"{count} updates of one display that {cells} cells show: {times['take'] / 1000:.1f} ms, "
          f"{each:.1f} ns for each output that is touched")
    return times["take"]


def main():
    program = common.program()
    base = fold(program, COUNT, CELLS)
    print(f"twice the messages take {fold(program, 2 * COUNT, CELLS) / max(base, 1):.2f} times as long")
    print(f"twice the cells take {fold(program, COUNT, 2 * CELLS) / max(base, 1):.2f} times as long")
    few = stream(program, 10)
    print(f"beside 10000 outputs {stream(program, 10000) / max(few, 1):.2f} times as long")
    base = updates(program, 1000, 1000)
    print(f"four times as many touched outputs take {updates(program, 2000, 2000) / max(base, 1):.2f} times as long")
    updates(program, 10000, 2000)


if __name__ == "__main__":
    main()
