#!/usr/bin/env python3
"""Times `./beep pair`: `--seed 0`, the same schedule written out, and schedules of its form of 2 and 10 times the length.

usage: bench/pair.py [ROUNDS]

In each of ROUNDS (5) rounds every schedule is run once, and its text is parsed once by a loop that does nothing else: each
line is split into its words, and each number read. The table has the medians: events and octets given per second, and the
ratio of the run to the loop. With the seed no text is read, and there is no ratio. Where the time is linear in the length, the events per second stay the same.
"""
import statistics
import subprocess
import sys
import tempfile
import time
from pathlib import Path

from timed import program

# The program itself: ./beep looks at all sources before it runs it, which takes as long as some of these runs.
BEEP = program()

# The requests and replies of the generated schedule, and the lengths in its terms.
ROWS = 1000
LENGTHS = [1, 2, 10]


def channel(i):
    return 2 * (i % 8) + 1


def schedule(rows):
    """A schedule of the generated one's form, with so many requests."""
    yield "beep-schedule 1"
    yield "drain 4096 4096"
    for j in range(8):
        yield f"A start {channel(j)}"
    yield "drain 4096 4096"
    for i in range(rows):
        n, fill = channel(i), i % 256
        yield f"A ask {n} {3 * (617 * i % 1000)} {fill}"
        yield "A send 4096"
        yield "B send 4096"
        yield f"B get {1 + 811 * i % 4096}"
        yield f"A get {1 + 409 * i % 512}"
        yield f"B take {n} 65536"
        yield f"B reply {n} 16 {fill}"
        yield f"A take {n} 65536"
    yield "drain 4096 4096"
    yield "drain 4096 4096"
    for i in range(rows):
        yield f"B reply {channel(i)} 16 {i % 256}"
    yield "drain 4096 4096"
    yield "drain 4096 4096"
    for j in range(8):
        yield f"A close {channel(j)}"
    yield "drain 4096 4096"
    yield "drain 4096 4096"
    yield "A release"
    yield "drain 4096 4096"
    yield "drain 4096 4096"


def run(path):
    with open(path, "rb") as text, open("/dev/null", "wb") as output:
        start = time.perf_counter()
        subprocess.run([str(BEEP), "pair"], stdin=text, stdout=output, check=True)
        return time.perf_counter() - start


def run_seed():
    with open("/dev/null", "wb") as output:
        start = time.perf_counter()
        subprocess.run([str(BEEP), "pair", "--seed", "0"], stdin=subprocess.DEVNULL, stdout=output, check=True)
        return time.perf_counter() - start


def parse(path):
    start = time.perf_counter()
    found = 0
    with open(path) as text:
        for line in text:
            words = line.split()
            found += sum(int(word) for word in words if word.isdigit())
    return time.perf_counter() - start


def row(name, path, events, rounds):
    runs = [(run(path), parse(path)) for _ in range(rounds)]
    taken, parsing = (statistics.median(column) for column in zip(*runs))
    print(f"{name:8} {events:8} {taken * 1000:8.1f} {events / taken:12.0f} {taken / parsing:8.2f}")


def seed_row(events, rounds):
    taken = statistics.median(run_seed() for _ in range(rounds))
    print(f"{'seed 0':8} {events:8} {taken * 1000:8.1f} {events / taken:12.0f} {'':>8}".rstrip())


def main():
    rounds = int(sys.argv[1]) if len(sys.argv) > 1 else 5
    print("schedule   events       ms     events/s  parsing")
    seed_row(len(list(schedule(ROWS))) - 1, rounds)
    with tempfile.TemporaryDirectory() as folder:
        for length in LENGTHS:
            lines = list(schedule(length * ROWS))
            path = Path(folder) / f"schedule-{length}"
            path.write_text("\n".join(lines) + "\n")
            row(f"{length} x", path, len(lines) - 1, rounds)


if __name__ == "__main__":
    main()
