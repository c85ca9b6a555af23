#!/usr/bin/env python3
"""Times `./beep replay` on three records of sessions, beside `./beep show` on the octets that each says were read.

usage: bench/replay.py [ROUNDS]

Each record has a little less than 16,777,216 octets, the most that is read. In each of ROUNDS (5) rounds both
commands run once, in turn. The table has the medians; the ratio is the time of `replay` over that of `show`.
Both write to /dev/null. Before the rounds `./beep replay` must end with status 0 and count all frames.
"""
import statistics
import subprocess
import sys
import tempfile
import time
from pathlib import Path

from timed import program

# The program itself: ./beep looks at all sources before it runs it, which takes as long as some of these runs.
BEEP = program()

# The octets of a record at most, and of a line; what a SEQ of the recorded end says; and the aim: `replay` over `show`.
MOST = 16777216
PIECE = 4096
WINDOW = 65536
AIM = 3.0

MIME = b"Content-Type: application/beep+xml\r\n\r\n"
PROFILE = b"<profile uri='http://xml.resource.org/profiles/syslog/RAW' />"


def element(text):
    return MIME + text + b"\r\n"


# Each octet as a record has it.
SPELLED = {13: b"\\r", 10: b"\\n", 92: b"\\\\"}
SPELLINGS = [
    SPELLED.get(octet, bytes([octet]) if 32 <= octet <= 126 else b"\\%02x" % octet) for octet in range(256)
]


class Session:
    """A session as a listener records it: frames of both sides, with the numbers that come next."""

    def __init__(self):
        self.lines = [b"beep-record 1 listener\n"]
        self.size = len(self.lines[0])
        self.pending = b""
        self.read = []
        self.counts = {"R": 0, "W": 0}
        self.seqnos = {}
        self.advertised = {}
        self.frame("W", b"RPY", 0, 0, element(b"<greeting>" + PROFILE + b"</greeting>"))
        self.frame("R", b"RPY", 0, 0, element(b"<greeting />"))

    def line(self, side, octets):
        text = side.encode() + b" " + b"".join(SPELLINGS[octet] for octet in octets) + b"\n"
        self.lines.append(text)
        self.size += len(text)

    def put(self, side, octets):
        """Octets that were read are gathered into lines of PIECE, and written ones have a line each."""
        self.counts[side] += 1
        if side == "W":
            self.flush()
            self.line("W", octets)
            return
        self.read.append(octets)
        self.pending += octets
        while len(self.pending) >= PIECE:
            self.line("R", self.pending[:PIECE])
            self.pending = self.pending[PIECE:]

    def flush(self):
        if self.pending:
            self.line("R", self.pending)
            self.pending = b""

    def frame(self, side, keyword, channel, number, payload, answer=None):
        seqno = self.seqnos.get((side, channel), 0)
        tail = b"" if answer is None else b" %d" % answer
        header = b"%s %d %d . %d %d%s\r\n" % (keyword, channel, number, seqno, len(payload), tail)
        self.put(side, header + payload + b"END\r\n")
        self.seqnos[side, channel] = seqno + len(payload)
        self.advertise("W" if side == "R" else "R", channel, seqno + len(payload))

    def advertise(self, side, channel, passed):
        """The side that takes octets says so with the first frame of a channel, and after each half of a window."""
        said = self.advertised.get((side, channel))
        if said is None or passed - said >= WINDOW // 2:
            self.put(side, b"SEQ %d %d %d\r\n" % (channel, passed, WINDOW))
            self.advertised[side, channel] = passed

    def forget(self, channel):
        """A number that starts anew counts from 0 again, in a window of 4,096."""
        for side in "RW":
            self.seqnos.pop((side, channel), None)
            self.advertised.pop((side, channel), None)

    def start(self, request, channel):
        self.frame("R", b"MSG", 0, request, element(b"<start number='%d'>" % channel + PROFILE + b"</start>"))
        self.frame("W", b"RPY", 0, request, element(PROFILE))

    def close(self, request, channel):
        self.frame("R", b"MSG", 0, request, element(b"<close number='%d' code='200' />" % channel))
        self.frame("W", b"RPY", 0, request, element(b"<ok />"))
        self.forget(channel)

    def is_full(self):
        return self.size + len(self.pending) > MOST - 65536


def answers(octets):
    """One request, whose answers have so many octets each."""
    session = Session()
    session.start(1, 1)
    session.frame("W", b"MSG", 1, 0, b"\r\nready\r\n")
    payload = (b"\r\n" + b"0123456789abcdef" * 64)[:octets]
    count = 0
    while not session.is_full():
        session.frame("R", b"ANS", 1, 0, payload, count)
        count += 1
    return session


def restarts():
    """64 channels that start, ask once each and close, over and over."""
    session = Session()
    channels = range(1, 129, 2)
    request = 1
    while not session.is_full():
        for channel in channels:
            session.start(request, channel)
            request += 1
        for channel in channels:
            session.frame("W", b"MSG", channel, 0, b"\r\nready\r\n")
            session.frame("R", b"NUL", channel, 0, b"")
        for channel in channels:
            session.close(request, channel)
            request += 1
    return session


SESSIONS = [
    ("answers of 1,024 octets", lambda: answers(1024)),
    ("answers of 20 octets", lambda: answers(20)),
    ("64 channels that start and close", restarts),
]


def check(record, session):
    """The replay ends well and counts all frames."""
    with open(record, "rb") as file:
        run = subprocess.run([BEEP, "replay"], stdin=file, stdout=subprocess.PIPE, check=True)
    wanted = b"frames %d %d left 0" % (session.counts["R"], session.counts["W"])
    last = run.stdout.splitlines()[-1]
    if last != wanted:
        sys.exit(f"the last line is {last!r}, and should be {wanted!r}")


def seconds_of(words, path):
    with open(path, "rb") as file:
        began = time.perf_counter()
        subprocess.run([BEEP, *words], stdin=file, stdout=subprocess.DEVNULL, check=True)
        return time.perf_counter() - began


def main():
    rounds = int(sys.argv[1] if len(sys.argv) > 1 else 5)
    print(f"medians of {rounds} runs each")
    with tempfile.TemporaryDirectory() as name:
        record, stream = Path(name) / "session.record", Path(name) / "read.beep"
        for title, make in SESSIONS:
            session = make()
            session.flush()
            record.write_bytes(b"".join(session.lines))
            stream.write_bytes(b"".join(session.read))
            check(record, session)
            times = {"replay": [], "show": []}
            for _ in range(rounds):
                times["replay"].append(seconds_of(["replay"], record))
                times["show"].append(seconds_of(["show"], stream))
            replay, show = (statistics.median(times[command]) for command in ("replay", "show"))
            octets, read = record.stat().st_size, stream.stat().st_size
            print(f"{title}: {session.counts['R']:,} frames read and {session.counts['W']:,} written")
            print(f"  beep replay {replay:>8.4f} s {octets / replay / 1e6:>7.0f} MB/s of {octets:,} octets of record")
            print(f"  beep show   {show:>8.4f} s {read / show / 1e6:>7.0f} MB/s of {read:,} octets that were read")
            print(f"  ratio {replay / show:.2f}   aim: at most {AIM:.2f}")


if __name__ == "__main__":
    main()
