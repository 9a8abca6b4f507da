#!/usr/bin/env python3
"""Runs one notebook with each kernel that is installed, by nbrun and by nbclient, and compares the outputs cell by cell.

kernels.py [--kernel-path DIR] [--program nbrun]: it wants Debian's python3-nbclient, and whichever of python3-ipykernel,
xpython, r-cran-irkernel and python3-octave-kernel are there; run it by /usr/bin/python3, whose modules these are. Compared
are the types, texts and data of outputs and the execution counts; not the ids and times. Status 0 where all agree."""
import argparse
import copy
import json
import subprocess
import sys
import tempfile
from pathlib import Path

import nbformat
from nbclient import NotebookClient

TOP = Path(__file__).resolve().parent.parent

PYTHON = ["print('a')\nprint('b')", "1 + 1", "import sys\nprint('e', file=sys.stderr)",
          "from IPython.display import display, HTML\ndisplay(HTML('<b>x</b>'))\ndisplay({'text/plain': 'y'}, raw=True)",
          "h = display('one', display_id='d')\nh.update('two') if h else None", "display('three', display_id='d', update=True)",
          "from IPython.display import clear_output\nprint('gone')\nclear_output()\nprint('stays')",
          "for i in range(200):\n    print(i, flush=True)", "'ü' * 3", "1 / 0", "x = 2", "x"]
R = ["cat('a\\n')", "1 + 1", "stop('no')", "x <- 2", "x"]
OCTAVE = ["disp('a')", "1 + 1", "error('no')", "x = 2;", "x"]
CELLS = {"python3": PYTHON, "xpython": PYTHON, "xpython-raw": ["print('a')", "1 + 1", "x = 2", "x", "1 / 0"], "ir": R, "octave": OCTAVE}


def notebook(kernel, language):
    cells = [nbformat.v4.new_code_cell(source, id=f"c{i}") for i, source in enumerate(CELLS[kernel])]
    metadata = {"kernelspec": {"display_name": kernel, "language": language, "name": kernel}}
    return nbformat.v4.new_notebook(cells=cells, metadata=metadata)


def plain(output):
    """An output as it is compared: streams as one text, tracebacks without colours' details."""
    output = json.loads(json.dumps(output))
    output.pop("execution_count", None)
    output.pop("transient", None)
    for key in ("text",):
        if isinstance(output.get(key), list):
            output[key] = "".join(output[key])
    for mime, value in output.get("data", {}).items():
        if isinstance(value, list) and mime != "application/json":
            output["data"][mime] = "".join(value)
    if output["output_type"] == "error":
        output["traceback"] = len(output["traceback"])
    return output


def joined(outputs):
    """Neighbouring outputs of one stream as one: how a kernel cuts what is printed isn't the executor's."""
    made = []
    for output in map(plain, outputs):
        if made and output["output_type"] == "stream" == made[-1]["output_type"] and output["name"] == made[-1]["name"]:
            made[-1]["text"] += output["text"]
        else:
            made.append(output)
    return made


def by_nbclient(book, kernel, folder):
    client = NotebookClient(copy.deepcopy(book), kernel_name=kernel, allow_errors=True, timeout=120, startup_timeout=120, resources={"metadata": {"path": folder}})
    return client.execute().cells


def by_nbrun(program, kernel_path, book, folder):
    source, target = Path(folder) / "in.ipynb", Path(folder) / "out.ipynb"
    source.write_text(nbformat.writes(book))
    words = [program, str(source), str(target), "--kernel-path", kernel_path, "--allow-errors", "--execution-timeout", "120", "--start-timeout", "120"]
    run = subprocess.run(words, capture_output=True, text=True)
    if run.returncode:
        return None, f"status {run.returncode}: {run.stdout.splitlines()[-1:]}"
    return json.loads(target.read_text())["cells"], ""


def compare(program, kernel_path, kernel, language):
    """The faults of one kernel."""
    book = notebook(kernel, language)
    with tempfile.TemporaryDirectory() as folder:
        ours, why = by_nbrun(program, kernel_path, book, folder)
        if ours is None:
            return [why]
        theirs = by_nbclient(book, kernel, folder)
    faults = []
    for i, (a, b) in enumerate(zip(ours, theirs)):
        if joined(a["outputs"]) != joined(b["outputs"]):
            faults.append(f"cell {i}: {joined(a['outputs'])} beside {joined(b['outputs'])}")
        if a["execution_count"] != b["execution_count"]:
            faults.append(f"cell {i}: count {a['execution_count']} beside {b['execution_count']}")
    return faults


def main():
    parser = argparse.ArgumentParser()
    parser.add_argument("--kernel-path", default="/usr/share/jupyter/kernels")
    parser.add_argument("--program", default=str(TOP / "nbrun"))
    given = parser.parse_args()
    failed = 0
    for kernel in CELLS:
        spec = Path(given.kernel_path) / kernel / "kernel.json"
        if not spec.exists():
            print(f"left   {kernel}: not installed in {given.kernel_path}")
            continue
        language = json.loads(spec.read_text())["language"]
        faults = compare(given.program, given.kernel_path, kernel, language)
        failed += bool(faults)
        print(f"{'DIFFERS' if faults else 'ok    '} {kernel}: {len(CELLS[kernel])} cells")
        for fault in faults:
            print(f"  {fault}")
    return 1 if failed else 0


if __name__ == "__main__":
    sys.exit(main())
