#!/usr/bin/env python3
"""Makes jobs files for all notebooks of a folder: shards.py NOTEBOOKS OUTPUTS SHARDS [JOBS]. It writes SHARDS/000.json,
SHARDS/001.json and so on, with at most JOBS jobs each (16 where nothing is said), and prints how many there are."""
import json
import sys
from pathlib import Path

# nbrun runs at most so many jobs in one process.
MOST = 16


def main():
    notebooks, outputs, shards = map(Path, sys.argv[1:4])
    jobs_a_file = min(int(sys.argv[4]), MOST) if len(sys.argv) > 4 else MOST
    inputs = sorted(notebooks.resolve().glob("*.ipynb"))
    outputs.mkdir(parents=True, exist_ok=True)
    shards.mkdir(parents=True, exist_ok=True)
    parts = [inputs[i:i + jobs_a_file] for i in range(0, len(inputs), jobs_a_file)]
    for number, part in enumerate(parts):
        jobs = [{"input": str(file), "output": str(outputs.resolve() / file.name), "cwd": str(notebooks.resolve())} for file in part]
        (shards / f"{number:03}.json").write_text(json.dumps({"jobs": jobs}, indent=1) + "\n")
    print(len(parts))


if __name__ == "__main__":
    main()
