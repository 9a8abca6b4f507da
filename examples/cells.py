#!/usr/bin/env python3
"""Says how each code cell of an executed notebook ended: cells.py NOTEBOOK. It needs nothing but Python."""
import json
import sys


def main():
    with open(sys.argv[1], encoding="utf-8") as file:
        notebook = json.load(file)
    for index, cell in enumerate(notebook["cells"]):
        if cell["cell_type"] == "code":
            errors = [f'{o["ename"]}: {o["evalue"]}' for o in cell["outputs"] if o["output_type"] == "error"]
            print(index, cell["metadata"].get("papermill", {}).get("status", "not run"), *errors)


if __name__ == "__main__":
    main()
