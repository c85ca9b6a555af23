#!/usr/bin/env python3
"""Times a session: requests of three sizes, each answered by an empty reply, at two windows, and over many channels.

usage: bench/session.py [ROUNDS]

crates/bench_session carries messages from one session in memory to another. What a message costs is the time of a run
that carries many, less that of the run that carries none, which begins the same channels. In each of ROUNDS (5) rounds
every run is made once; the tables have the medians. The ratio is to a C program, run in the same round, that copies the
same octets through as many buffers as they pass in a session: outbox, frame, wire, decoder, inbox and the program's own.
"""
import statistics
import sys
import tempfile

from timed import TOP, copier, run

PROGRAM = TOP / "crates/bench_session/out/bench_session"

# The buffers through which an octet passes.
BUFFERS = 6

# The octets of a message, and how many messages are carried.
SIZES = [(20, 200_000), (1024, 100_000), (65536, 2_000)]
WINDOWS = [4096, 65536]

# Over how many channels messages are carried in turn, and of how many octets.
CHANNELS = [1, 16, 64]
SMALL = 20


def cost(size, messages, window, channels):
    """The seconds of a message in one round."""
    many, none = (run([PROGRAM, count, size, window, channels]) for count in (messages, 0))
    return max(many - none, 1e-9) / messages


def copied(copy, size, messages):
    """The seconds of copying a message in one round, of which so many are copied that a run takes its time."""
    count = max(messages, 500_000_000 // (size * BUFFERS))
    return run([copy, size, count, BUFFERS]) / count


def medians(rounds, measure):
    return [statistics.median(column) for column in zip(*(measure() for _ in range(rounds)))]


def print_sizes(copy, rounds):
    print("octets window  messages/s     MB/s   copies")
    for size, messages in SIZES:
        for window in WINDOWS:
            taken, copying = medians(
                rounds, lambda: (cost(size, messages, window, 1), copied(copy, size, messages)))
            print(f"{size:6} {window:6} {1 / taken:11.0f} {size / taken / 1e6:8.1f} {taken / copying:8.1f}")


def print_channels(rounds):
    print("channels ns/message")
    messages = dict(SIZES)[SMALL]
    for channels in CHANNELS:
        (taken,) = medians(rounds, lambda: (cost(SMALL, messages, WINDOWS[0], channels),))
        print(f"{channels:8} {taken * 1e9:10.1f}")


def main():
    rounds = int(sys.argv[1]) if len(sys.argv) > 1 else 5
    if not PROGRAM.exists():
        sys.exit("build it first: .ci/run, or rt run in crates/bench_session")
    with tempfile.TemporaryDirectory() as folder:
        print_sizes(copier(folder), rounds)
        print_channels(rounds)


if __name__ == "__main__":
    main()
