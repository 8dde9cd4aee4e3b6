#!/usr/bin/env python3
"""How much of its processors a machine takes away from who wants them all: a process on each reads the clock again and again
and sums the gaps of more than 3 ms, in which another program, or a virtual machine's host, had the processor. Prints
thousandths of the time.

bench/taken.py SECONDS
"""
import os
import sys
import time

GAP = 0.003


def gaps(seconds):
    """The sum of the gaps, in seconds."""
    last = time.perf_counter()
    end = last + seconds
    total = 0.0
    while last < end:
        now = time.perf_counter()
        if now - last > GAP:
            total += now - last
        last = now
    return total


def main():
    seconds = float(sys.argv[1])
    processors = sorted(os.sched_getaffinity(0))
    reads, writes = os.pipe()
    for processor in processors:
        if os.fork() == 0:
            os.sched_setaffinity(0, {processor})
            os.write(writes, b"%f\n" % gaps(seconds))
            os._exit(0)
    for _ in processors:
        os.wait()
    os.close(writes)
    with os.fdopen(reads) as it:
        total = sum(map(float, it))
    print(round(1000 * total / seconds / len(processors)))


if __name__ == "__main__":
    main()
