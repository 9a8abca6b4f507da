#!/usr/bin/env python3
"""Signed messages decoded, beside the python3 that runs this: 100,000 stream messages of 300 octets, and one of 16 MiB."""
import hashlib
import hmac
import json
import sys
import time

import common

KEY = b"b5a1c1f6-3d0e-4c1a-9b0f-0123456789ab"
HEADER = b'{"msg_id":"0_1","session":"s","username":"k","date":"2000-01-01T00:00:00.000Z","msg_type":"stream","version":"5.3"}'
PARENT = b'{"msg_id":"1_1","msg_type":"execute_request"}'


def decode(frames, signature):
    digest = hmac.new(KEY, digestmod=hashlib.sha256)
    for frame in frames:
        digest.update(frame)
    return hmac.compare_digest(digest.hexdigest().encode(), signature) and [json.loads(frame) for frame in frames]


def beside(count, size):
    content = b'{"name":"stdout","text":"' + b"a" * size + b'"}'
    frames = [HEADER, PARENT, b"{}", content]
    signature = hmac.new(KEY, b"".join(frames), hashlib.sha256).hexdigest().encode()
    for _ in range(2):  # The first round is untimed, as in `measure`.
        start = time.perf_counter()
        for _ in range(count):
            decode(frames, signature)
    print(f"decode {(time.perf_counter() - start) * 1000}")


def main():
    program = common.program()
    print(f"beside {sys.executable}, {sys.version.split()[0]}")
    for count, size in ((100000, 300), (1, 16 << 20)):
        ours, _ = common.least([program, "messages", str(count), str(size)])
        theirs, _ = common.least([sys.executable, __file__, str(count), str(size)])
        python = theirs["decode"]
        ratio, once = python / max(ours["decode"], 1), python / max(ours["decode_under"], 1)
        print(f"{count} messages of {size} octets: {ours['decode']:.0f} ms, python3 {python:.0f} ms, {ratio:.2f} times as fast")
        print(f"  with the key hashed once {ours['decode_under']:.0f} ms, {once:.2f} times as fast; the signatures alone {ours['check']:.0f} ms")


if __name__ == "__main__":
    beside(int(sys.argv[1]), int(sys.argv[2])) if len(sys.argv) > 1 else main()
