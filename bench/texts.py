#!/usr/bin/env python3
"""JSON read and written beside python3's json, whose scanner is in C: times and peak memory as ratios.

The inputs are made here, 32 MiB each: long strings as pictures in base64, and a dense one; and an object of 100,000 keys.
"""
import base64
import json
import os
import sys
import tempfile
import time

import common

SIZE = 32 << 20


def pictures():
    picture = base64.b64encode(os.urandom(3 << 18)).decode()
    return json.dumps([{"image/png": picture} for _ in range(SIZE // len(picture))])


def dense():
    rows, size, n = [], 0, 0
    while size < SIZE:
        row = {f"{key}{n % 10000000:07d}": value for key, value in zip("abcde", (123456, "abcdefghijkl", 654321, "lkjihgfedcba", 999999))}
        rows.append(row)
        size += 117
        n += 1
    return json.dumps(rows)


def keys():
    return json.dumps({f"key{n:06d}": n for n in range(100000)})


def beside(file):
    """What python3 itself needs, measured in a process of its own."""
    start = time.perf_counter()
    with open(file, "rb") as opened:
        data = opened.read()
    start = time.perf_counter()
    tree = json.loads(data)
    read = time.perf_counter() - start
    start = time.perf_counter()
    json.dumps(tree, indent=1, sort_keys=True, ensure_ascii=False)
    wrote = time.perf_counter() - start
    start = time.perf_counter()
    json.dumps(tree, separators=(",", ":"), ensure_ascii=False)
    packed = time.perf_counter() - start
    print(f"read {read * 1000}\nwrite_indented {wrote * 1000}\nwrite_compact {packed * 1000}")


def main():
    program = common.program()
    with tempfile.TemporaryDirectory() as folder:
        for name, make in (("pictures", pictures), ("dense", dense), ("keys", keys)):
            file = os.path.join(folder, name + ".json")
            common.make(file, make)
            size = os.path.getsize(file)
            ours, peak = common.least([program, "json", file])
            theirs, their_peak = common.least([sys.executable, __file__, file])
            for step in ("read", "write_indented", "write_compact"):
                ratio = theirs[step] / max(ours[step], 1)
                print(f"{name} {step}: {ours[step]:.0f} ms, python3 {theirs[step]:.0f} ms, {ratio:.2f} times as fast")
            print(f"{name} peak memory: {peak / size:.1f} times the file of {size} bytes, python3 {their_peak / size:.1f}")


if __name__ == "__main__":
    beside(sys.argv[1]) if len(sys.argv) > 1 else main()
