#!/usr/bin/env python3
"""Times the calls on one life of a channel: give, cut, arrive and take, for messages of three sizes.

usage: bench/channel.py [ROUNDS]

crates/bench_channel makes channels one after another, and in each the calls up to one. What a call costs is the time of
a run that makes it, less that of the run that stops before it. In each of ROUNDS (5) rounds every run is made once; the
table has the medians, in nanoseconds a message, picoseconds an octet, and as a ratio to `memcpy` of the same octets in a
C program that is run in the same round. A channel takes no more messages than its window has room for: its room is made
with it, so that what is timed takes no memory. The second row of the smallest messages has as many requests as may wait.
"""
import statistics
import sys
import tempfile

from timed import TOP, copier, run

PROGRAM = TOP / "crates/bench_channel/out/bench_channel"

# The octets of a message, and how many pass in one channel.
SIZES = [(20, 64), (20, 1024), (1024, 63), (65536, 1)]

# About so many octets, or so many messages, pass in a run.
OCTETS = 400_000_000
MESSAGES = 4_000_000


def runs(size, messages, calls):
    channels = max(1, min(OCTETS // (size * messages), MESSAGES // messages))
    return [[PROGRAM, call, size, messages, channels] for call in calls], channels * messages


def costs(size, messages, copy):
    """The seconds of a message in each call, and of copying it, in one round."""
    commands, count = runs(size, messages, ["new", "give", "cut", "arrive", "take"])
    new, give, cut, arrive, take = (run(words) for words in commands)
    copied = run([copy, size, count])
    return [(cost / count) for cost in (give - new, cut - give, arrive - new, take - arrive, copied)]


def main():
    rounds = int(sys.argv[1]) if len(sys.argv) > 1 else 5
    if not PROGRAM.exists():
        sys.exit("build it first: .ci/run, or rt run in crates/bench_channel")
    with tempfile.TemporaryDirectory() as folder:
        copy = copier(folder)
        print("octets messages call    ns/message ps/octet  memcpy")
        for size, messages in SIZES:
            table = [costs(size, messages, copy) for _ in range(rounds)]
            *calls, copied = (statistics.median(column) for column in zip(*table))
            for name, cost in zip(["give", "cut", "arrive", "take", "memcpy"], calls + [copied]):
                ratio = cost / copied
                print(f"{size:6} {messages:8} {name:7} {cost * 1e9:10.1f} {cost / size * 1e12:8.1f} {ratio:7.1f}")


if __name__ == "__main__":
    main()
