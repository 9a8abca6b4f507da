#!/usr/bin/env python3
"""Speaks to the program `toy_kernel` over real sockets, as jupyter_client does over libzmq. It stands outside the gate:
it wants Debian's python3-jupyter-client, and says what it tried line by line. Status 0 where all went well."""
import json
import os
import subprocess
import sys
import tempfile
import time
from pathlib import Path

import zmq
from jupyter_client import BlockingKernelClient
from jupyter_client.connect import write_connection_file

TOP = Path(__file__).resolve().parent.parent
CRATE = TOP / "crates" / "toy_kernel"
PROGRAM = CRATE / "out" / "toy_kernel"
FAILED = []


def check(name, found, wanted):
    print(("ok    " if found == wanted else "FAILED") + f" {name}" + ("" if found == wanted else f": {found!r}, not {wanted!r}"))
    if found != wanted:
        FAILED.append(name)


KERNELS = []


def start(folder):
    """A kernel on free ports, and a client of it."""
    file, info = write_connection_file(str(Path(folder) / "kernel.json"), key=b"0123-key", kernel_name="toy")
    kernel = subprocess.Popen([PROGRAM, file])
    KERNELS.append(kernel)
    client = BlockingKernelClient(connection_file=file)
    client.load_connection_file()
    client.start_channels()
    client.wait_for_ready(timeout=20)
    return kernel, client, info


def outputs(client, msg_id, timeout=10):
    """The types and contents that are published to a request, up to its idle."""
    said = []
    while True:
        message = client.get_iopub_msg(timeout=timeout)
        if message["parent_header"].get("msg_id") != msg_id:
            continue
        said.append((message["msg_type"], message["content"]))
        if said[-1] == ("status", {"execution_state": "idle"}):
            return said


def cells(client):
    """Cells, their outputs and their replies."""
    msg_id = client.execute("a = 1\nprint a\nshow d a\nresult a")
    said = outputs(client, msg_id)
    check("types", [kind for kind, _ in said],
          ["status", "execute_input", "stream", "display_data", "execute_result", "status"])
    check("stream", said[2][1], {"name": "stdout", "text": "1\n"})
    reply = client.get_shell_msg(timeout=10)
    check("reply", (reply["content"]["status"], reply["content"]["execution_count"]), ("ok", 1))
    check("parent", reply["parent_header"]["msg_id"], msg_id)
    msg_id = client.execute("print b")
    check("error", [c["ename"] for kind, c in outputs(client, msg_id) if kind == "error"], ["NameError"])
    check("error reply", client.get_shell_msg(timeout=10)["content"]["status"], "error")


def sleep(client):
    """A sleep lasts, and another request waits for it."""
    began = time.monotonic()
    first, second = client.execute("sleep 400\nprint 1"), client.execute("print 2")
    outputs(client, first)
    took = time.monotonic() - began
    check("sleep lasts", 0.4 <= took < 2, True)
    outputs(client, second)
    check("replies in order", [client.get_shell_msg(timeout=10)["parent_header"]["msg_id"] for _ in range(2)], [first, second])


def interrupt(client):
    """An interrupt by message ends the cell."""
    began = time.monotonic()
    msg_id = client.execute("sleep 60000")
    time.sleep(0.3)
    client.control_channel.send(client.session.msg("interrupt_request", {}))
    said = outputs(client, msg_id)
    check("interrupted", [c["ename"] for kind, c in said if kind == "error"], ["KeyboardInterrupt"])
    check("interrupt is prompt", time.monotonic() - began < 5, True)
    check("interrupt reply", client.get_control_msg(timeout=10)["content"], {"status": "ok"})
    check("interrupted reply", client.get_shell_msg(timeout=10)["content"]["ename"], "KeyboardInterrupt")


def heart(info):
    """Pings come back, and larger ones too."""
    socket = zmq.Context.instance().socket(zmq.REQ)
    socket.connect(f"tcp://127.0.0.1:{info['hb_port']}")
    socket.setsockopt(zmq.LINGER, 0)
    for ping in (b"ping", os.urandom(1_000_000)):
        socket.send(ping)
        check(f"ping of {len(ping)}", socket.poll(5000) and socket.recv() == ping, True)
    socket.close()


def large(client):
    """Many outputs, and one of a megabyte."""
    msg_id = client.execute("\n".join(f"print {i}" for i in range(2000)) + '\nprint "' + "x" * 1_000_000 + '"')
    said = outputs(client, msg_id, timeout=60)
    check("2001 streams", sum(kind == "stream" for kind, _ in said), 2001)
    check("the last has a megabyte", len(said[-2][1]["text"]), 1_000_001)
    check("large reply", client.get_shell_msg(timeout=10)["content"]["status"], "ok")


def statuses(folder):
    """Exit statuses without a kernel that runs."""
    def status(*words):
        return subprocess.run([PROGRAM, *words], capture_output=True, timeout=20).returncode
    good = {"control_port": 1004, "hb_port": 1005, "iopub_port": 1002, "ip": "127.0.0.1", "key": "k", "shell_port": 1001,
            "signature_scheme": "hmac-sha256", "stdin_port": 1003, "transport": "tcp"}
    file = Path(folder) / "c.json"
    about = subprocess.run([PROGRAM, "--about"], capture_output=True)
    check("--about", (about.returncode, about.stdout), (0, b"toy\n"))
    check("no file given", status(), 2)
    check("two words", status("a", "b"), 2)
    check("no such file", status(str(Path(folder) / "none")), 2)
    for text in ("", "[]", "{", '"x"', "{}", "\xff"):
        file.write_text(text, encoding="latin-1")
        check(f"file {text!r}", status(str(file)), 3)
    for key in good:
        file.write_text(json.dumps({k: v for k, v in good.items() if k != key}))
        check(f"without {key}", status(str(file)), 3)
    for key, value in (("shell_port", 0), ("shell_port", 65536), ("shell_port", "1001"), ("shell_port", -1), ("shell_port", 1.5),
                       ("key", 1), ("ip", "10.0.0.1"), ("transport", "ipc"), ("signature_scheme", "hmac-md5")):
        file.write_text(json.dumps({**good, key: value}))
        check(f"{key} {value!r}", status(str(file)), 3)
    file.write_text(json.dumps({**good, "shell_port": 2001, "iopub_port": 2001}))
    check("one port twice", status(str(file)), 4)


def main():
    """Tries all of it, and ends the kernels that were started."""
    if not PROGRAM.exists():
        subprocess.run(["rt", "run", "--", "--about"], cwd=CRATE, check=True)
    try:
        run()
    finally:
        for kernel in KERNELS:
            kernel.kill()
    print(f"{len(FAILED)} failed")
    return 1 if FAILED else 0


def run():
    """The statuses without a kernel, and then sessions with one."""
    with tempfile.TemporaryDirectory() as folder:
        statuses(folder)
        kernel, client, info = start(folder)
        check("protocol", client.kernel_info(reply=True, timeout=10)["content"]["protocol_version"], "5.3")
        cells(client)
        sleep(client)
        interrupt(client)
        large(client)
        client.stop_channels()
        heart(info)
        client = BlockingKernelClient(connection_file=str(Path(folder) / "kernel.json"))
        client.load_connection_file()
        client.start_channels()
        client.wait_for_ready(timeout=20)
        check("a second client", client.execute_interactive("print a", timeout=10, output_hook=lambda m: None)["content"]["status"], "ok")
        client.shutdown()
        check("shutdown", kernel.wait(timeout=10), 0)
        client.stop_channels()
        kernel, client, info = start(folder)
        client.execute("print 1\ndie")
        check("die", kernel.wait(timeout=10), 1)
        client.stop_channels()


if __name__ == "__main__":
    sys.exit(main())
