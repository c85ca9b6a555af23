#!/usr/bin/env python3
"""Times `./beep show` on three recorded streams, beside bench/scan.c and `cat FILE | wc -c`.

usage: bench/show.py [MEGABYTES [ROUNDS]]

Each stream has MEGABYTES (200) of 1,000,000 octets, at most 1073. In each of ROUNDS (5) rounds every program runs
once, in turn. The table has the medians. All programs write to /dev/null. Before the rounds `./beep show` and the
scanner must print the same lines, those of elements apart, which the scanner doesn't read.
"""
import statistics
import subprocess
import sys
import tempfile
import time
from collections import namedtuple
from itertools import zip_longest
from pathlib import Path

BENCH = Path(__file__).resolve().parent
TOP = BENCH.parent

# The greeting of RFC 3080, section 2.3.1.1, with one profile: 110 octets.
GREETING = (
    b"Content-Type: application/beep+xml\r\n\r\n"
    b"<greeting>\r\n   <profile uri='http://iana.org/beep/TLS' />\r\n</greeting>\r\n"
)

# A stream by its name, the channel and the payload of each of its frames, the words of the run, and the aim: the
# time of `./beep` over the scanner's, where there is one. A row is one more stream.
Stream = namedtuple("Stream", "name channel payload words aim")
STREAMS = [
    Stream("large", 1, bytes(i % 256 for i in range(1024)), ["show"], 1.5),
    Stream("tiny", 1, bytes(i % 256 for i in range(20)), ["show"], 3.0),
    Stream("elements", 0, GREETING, ["show", "--elements", "yes"], None),
]
SCANNER = "bench/scan.c"
PLAIN = "./beep show"


def make_stream(path, channel, payload, octets):
    """Writes whole requests of a channel until the file has so many octets; answers how many, and their octets."""
    size = len(payload)
    body = payload + b"END\r\n"
    frames = written = seqno = 0
    with open(path, "wb") as file:
        while written < octets:
            frame = b"MSG %d %d . %d %d\r\n" % (channel, frames % 2**31, seqno, size) + body
            file.write(frame)
            written += len(frame)
            frames += 1
            seqno = (seqno + size) % 2**32
    return frames, written


def compile_scanner(folder):
    scanner = folder / "scan"
    subprocess.run(["cc", "-std=c11", "-O2", "-o", scanner, BENCH / "scan.c"], check=True)
    return scanner


def printed_lines(command, path, lines):
    """Runs a command on a stream and leaves what it prints in the file `lines`; its status must be 0."""
    with open(path, "rb") as file, open(lines, "wb") as out:
        subprocess.run(command, stdin=file, stdout=out, check=True)


def check_same(beep, scanner, path, folder):
    """Both list the same frames. This run also builds the program where it isn't built yet."""
    lines = folder / "beep.lines", folder / "scan.lines"
    printed_lines(beep, path, lines[0])
    printed_lines(scanner, path, lines[1])
    if not have_same_frames(*lines):
        sys.exit("./beep and bench/scan.c print other lines")


def have_same_frames(listed, scanned):
    """Whether two lists are the same; the lines of elements, which begin with a space, are passed over."""
    with open(listed, "rb") as first, open(scanned, "rb") as second:
        return all(a == b for a, b in zip_longest((line for line in first if not line.startswith(b" ")), second))


def seconds_of(command, path):
    with open(path, "rb") as file:
        began = time.perf_counter()
        subprocess.run(command, stdin=file, stdout=subprocess.DEVNULL, check=True)
        return time.perf_counter() - began


def medians(commands, path, rounds):
    """The median seconds of each command, which run in turn."""
    times = {name: [] for name in commands}
    for _ in range(rounds):
        for name, command in commands.items():
            times[name].append(seconds_of(command, path))
    return {name: statistics.median(list_of) for name, list_of in times.items()}


def print_rows(stream, frames, octets, seconds):
    beep = next(iter(seconds))
    print(f"{stream.name}: {frames:,} frames with {len(stream.payload):,} octets of payload, {octets:,} octets in all")
    print(f"  {'program':<26}{'seconds':>9}{'MB/s':>8}   time of {beep} over its time")
    for name, taken in seconds.items():
        aim = f"   aim: at most {stream.aim:.2f}" if name == SCANNER and stream.aim else ""
        print(f"  {name:<26}{taken:>9.3f}{octets / taken / 1e6:>8.0f}   {seconds[beep] / taken:.2f}{aim}")


def main():
    octets = int(sys.argv[1] if len(sys.argv) > 1 else 200) * 1000000
    rounds = int(sys.argv[2] if len(sys.argv) > 2 else 5)
    with tempfile.TemporaryDirectory() as name:
        folder = Path(name)
        scanner = compile_scanner(folder)
        print(f"medians of {rounds} runs each")
        for stream in STREAMS:
            path = folder / f"{stream.name}.beep"
            frames, written = make_stream(path, stream.channel, stream.payload, octets)
            beep = [TOP / "beep", *stream.words]
            commands = {
                " ".join(["./beep", *stream.words]): beep,
                PLAIN: [TOP / "beep", "show"],
                SCANNER: [scanner],
                "cat FILE | wc -c": ["sh", "-c", 'cat "$0" | wc -c', path],
            }
            check_same(beep, [scanner], path, folder)
            print_rows(stream, frames, written, medians(commands, path, rounds))
            path.unlink()


if __name__ == "__main__":
    main()
