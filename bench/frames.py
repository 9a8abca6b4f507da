#!/usr/bin/env python3
"""64 MiB of ZMTP frames through the decoder, small and large, in pieces of 65,536 and of 1,000 octets; and one message of
1,048,576 octets in pieces of one octet."""
import common

TOTAL = 64 << 20


def main():
    program = common.program()
    for size in (100, 1 << 20):
        for piece in (65536, 1000):
            times, peak = common.least([program, "frames", str(size), str(piece), str(TOTAL // size)])
            rate = TOTAL / 1e6 / max(times["feed"], 1) * 1000
            print(f"frames of {size} octets in pieces of {piece}: {times['feed']:.0f} ms, {rate:.0f} MB a second, peak {peak / 1e6:.0f} MB")
    times, _ = common.least([program, "frames", str(1 << 20), "1", "1"], times=1)
    print(f"one message of 1048576 octets in pieces of 1: {times['feed']:.0f} ms")


if __name__ == "__main__":
    main()
