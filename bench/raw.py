#!/usr/bin/env python3
"""Times `beep send` to `beep listen` over loopback: 16 MB in lines of 80 and of 1,000 octets, at two windows.

usage: bench/raw.py [ROUNDS]

In each of ROUNDS (5) rounds every run is made once, and beside it that of bench/raw.c, a sender and a collector in C that
make the same frames in the same exchanges and check nothing: once with one write for each buffer that is full, and once with
one for each quarter of it, as `beep` writes. The table has the medians, from the start of the sender to the end of both
processes: lines and MB a second, microseconds on the processor for a line at both ends together, and the ratios to the C pair
with whole buffers, of the time and of the processor, and of the time to the one with quarters. Each end has a processor of its
own, where there are two: else the scheduler has both on one now and then. What the collector writes is compared with what was
sent. Then, where there is strace, the system calls of both ends for a line, and those of the C pair with whole buffers.
"""
import filecmp
import os
import re
import resource
import shutil
import socket
import statistics
import subprocess
import sys
import tempfile
import time
from pathlib import Path

from timed import program

TOP = Path(__file__).resolve().parent.parent
PROGRAM = program()

# The octets of an input, and of each of its lines with the LF.
SIZE = 16_000_000
LENGTHS = [80, 1000]
WINDOWS = ["4096", "65536"]

# The octets of a payload at most: what `beep send` takes where nothing is set.
PIECE = "1024"

# How much the C pair gathers before it writes: as much as its buffer holds of whole frames, or a quarter of that buffer.
BUFFER = 65536 - 4163
QUARTER = 16384


def free_port():
    with socket.socket() as link:
        link.bind(("127.0.0.1", 0))
        return str(link.getsockname()[1])


def own_processor(end):
    """What gives a process that begins the processor of this end, 0 or 1."""
    processors = sorted(os.sched_getaffinity(0))
    return lambda: os.sched_setaffinity(0, {processors[end % len(processors)]})


def processor():
    used = resource.getrusage(resource.RUSAGE_CHILDREN)
    return used.ru_utime + used.ru_stime


def commands(pair, window, most=BUFFER):
    """The words of a collector and a sender."""
    port = free_port()
    if pair:
        return [pair, "listen", port, window], [pair, "send", port, PIECE, str(most)]
    listen = [PROGRAM, "listen", "--port", port, "--window", window]
    return listen, [PROGRAM, "send", "--host", "127.0.0.1", "--port", port, "--piece", PIECE]


def measure(words, lines, before=((), ())):
    """The seconds of a collector and a sender, and those of both on the processor."""
    got = lines.with_suffix(".got")
    with open(got, "wb") as output, open(lines, "rb") as source:
        used = processor()
        collector = subprocess.Popen([*before[0], *words[0]], stdout=output, stderr=subprocess.DEVNULL,
                                     preexec_fn=own_processor(0))
        # Until it has its port a sender fails at once.
        time.sleep(0.5)
        start = time.perf_counter()
        subprocess.run([*before[1], *words[1]], stdin=source, stdout=subprocess.DEVNULL, stderr=subprocess.DEVNULL, check=True,
                       preexec_fn=own_processor(1))
        if collector.wait() != 0:
            sys.exit("the collector fails")
        took = time.perf_counter() - start
    if not filecmp.cmp(got, lines, shallow=False):
        sys.exit("what the collector writes isn't what was sent")
    return took, processor() - used


def print_times(pair, lines, length, window, rounds):
    runs = [(None, BUFFER), (pair, BUFFER), (pair, QUARTER)]
    found = [[figure for who, most in runs for figure in measure(commands(who, window, most), lines)] for _ in range(rounds)]
    took, used, c_took, c_used, quarters_took, _ = (statistics.median(column) for column in zip(*found))
    count = SIZE // length
    print(f"{length:6} {window:>6} {count / took:10.0f} {SIZE / took / 1e6:7.1f} {used / count * 1e6:9.3f}"
          f" {took / c_took:6.2f} {used / c_used:6.2f} {took / quarters_took:8.2f}")


def calls(report):
    total = re.search(r"^100\.00\s+\S+\s+\S+\s+(\d+)", report.read_text(), re.M)
    return int(total[1])


def print_calls(pair, lines, length, window):
    reports = [lines.with_suffix(f".calls{end}") for end in (0, 1)]
    traced = tuple(["strace", "-f", "-c", "-U", "time,avg-time,total-time,calls", "-o", str(report)] for report in reports)
    found = []
    for words in (commands(None, window), commands(pair, window)):
        measure(words, lines, traced)
        found.append(sum(calls(report) for report in reports) / (SIZE // length))
    print(f"{length:6} {window:>6} {found[0]:10.4f} {found[1]:10.4f}")


def each(folder):
    for length in LENGTHS:
        lines = Path(folder) / f"lines-{length}"
        lines.write_bytes((b"x" * (length - 1) + b"\n") * (SIZE // length))
        for window in WINDOWS:
            yield lines, length, window


def main():
    rounds = int(sys.argv[1]) if len(sys.argv) > 1 else 5
    with tempfile.TemporaryDirectory() as folder:
        pair = Path(folder) / "raw"
        subprocess.run(["gcc", "-O2", "-o", pair, TOP / "bench/raw.c"], check=True)
        print("octets window    lines/s    MB/s   us/line   time    CPU quarters")
        for lines, length, window in each(folder):
            print_times(pair, lines, length, window, rounds)
        if shutil.which("strace"):
            print("octets window calls/line  of the C pair")
            for lines, length, window in each(folder):
                print_calls(pair, lines, length, window)


if __name__ == "__main__":
    main()
