#!/usr/bin/env python3
"""Times `beep send` to `beep listen` beside two rsyslogd over loopback: by plain TCP and by RELP.

usage: bench/rsyslog.py [ROUNDS]

200,000 lines of 80 octets go from a file to a file. In each of ROUNDS (3) rounds every run is made once: `beep` at two
windows, one rsyslogd that reads the file (imfile) and forwards to another that writes it (omfwd to imtcp), and by RELP (omrelp
to imrelp) a tenth of the lines, once with its own window of 128 messages and once with one of 8,192. A run begins as the
sender starts and ends as the collector's file has all octets, which are compared with what was sent. The table has the
medians: lines a second, microseconds on the processor for a line at both ends together, and the greatest resident memory of
the collector. It needs rsyslogd with its RELP modules (Debian: rsyslog, rsyslog-relp).
"""
import filecmp
import os
import resource
import shutil
import signal
import socket
import statistics
import subprocess
import sys
import tempfile
import time
from pathlib import Path

from timed import program

LINES = 200_000
FEW = 20_000
LENGTH = 80
# How long a run takes at most, in seconds.
LONG = 120

COLLECTOR = """
global(workDirectory="{folder}")
module(load="{module}")
template(name="line" type="string" string="%rawmsg%\\n")
input(type="{module}" port="{port}" ruleset="out")
ruleset(name="out") {{ action(type="omfile" file="{got}" template="line") }}
"""
SENDER = """
global(workDirectory="{folder}")
module(load="imfile")
{load}
template(name="line" type="string" string="%msg%")
ruleset(name="out") {{ action(type="{action}" target="127.0.0.1" port="{port}" template="line" {more}) }}
input(type="imfile" file="{lines}" tag="t" ruleset="out")
"""
# The input module of the collector, and of the sender's action its module, name and parameters.
WAYS = {
    "tcp": ("imtcp", "", "omfwd", 'protocol="tcp"'),
    "relp": ("imrelp", 'module(load="omrelp")', "omrelp", ""),
    "wide": ("imrelp", 'module(load="omrelp")', "omrelp", 'windowsize="8192"'),
}


def free_port():
    with socket.socket() as link:
        link.bind(("127.0.0.1", 0))
        return str(link.getsockname()[1])


def wait_for_port(port):
    for _ in range(1000):
        with socket.socket() as link:
            if link.connect_ex(("127.0.0.1", int(port))) == 0:
                return
        time.sleep(0.01)
    sys.exit("no collector listens")


def wait_for(got, size):
    """Waits until a file has so many octets."""
    end = time.monotonic() + LONG
    while not got.exists() or got.stat().st_size < size:
        if end < time.monotonic():
            sys.exit(f"{got} has {got.stat().st_size if got.exists() else 0} of {size} octets after {LONG} s")
        time.sleep(0.002)


def memory_of(child):
    """The greatest resident memory of a child that runs, in megabytes."""
    for row in Path(f"/proc/{child.pid}/status").read_text().splitlines():
        if row.startswith("VmHWM:"):
            return int(row.split()[1]) / 1000
    return 0.0


def used_by(child):
    """The seconds on the processor of a child that ends."""
    _, status, used = os.wait4(child.pid, 0)
    child.returncode = os.waitstatus_to_exitcode(status)
    return used.ru_utime + used.ru_stime


def finish(start, sender, collector):
    """What a run took, in seconds and on the processor, and the collector's memory. A collector waits for more."""
    took = time.perf_counter() - start
    memory = memory_of(collector)
    collector.send_signal(signal.SIGTERM)
    return took, used_by(sender) + used_by(collector), memory


def beep_run(window, lines, got):
    port = free_port()
    with open(got, "wb") as output, open(lines, "rb") as source:
        collector = subprocess.Popen([PROGRAM, "listen", "--port", port, "--window", window, "--sessions", "2"],
                                     stdout=output, stderr=subprocess.DEVNULL)
        time.sleep(0.3)
        start = time.perf_counter()
        sender = subprocess.Popen([PROGRAM, "send", "--host", "127.0.0.1", "--port", port], stdin=source,
                                  stderr=subprocess.DEVNULL)
        wait_for(got, lines.stat().st_size)
        return finish(start, sender, collector)


def daemon(folder, name, text):
    """An rsyslogd of a configuration."""
    work = Path(folder) / name
    shutil.rmtree(work, ignore_errors=True)
    work.mkdir()
    (work / "conf").write_text(text)
    return subprocess.Popen(["rsyslogd", "-n", "-C", "-i", work / "pid", "-f", work / "conf"], stderr=subprocess.DEVNULL)


def rsyslog_run(way, lines, got, folder):
    module, load, action, more = WAYS[way]
    port = free_port()
    got.unlink(missing_ok=True)
    collector = daemon(folder, "collector", COLLECTOR.format(folder=folder, module=module, port=port, got=got))
    wait_for_port(port)
    start = time.perf_counter()
    sender = daemon(folder, "sender", SENDER.format(folder=Path(folder) / "sender", load=load, action=action, port=port,
                                                    more=more, lines=lines))
    wait_for(got, lines.stat().st_size)
    sender.send_signal(signal.SIGTERM)
    return finish(start, sender, collector)


def main():
    rounds = int(sys.argv[1]) if len(sys.argv) > 1 else 3
    if not shutil.which("rsyslogd"):
        sys.exit("there is no rsyslogd")
    with tempfile.TemporaryDirectory() as folder:
        many, few, got = (Path(folder) / name for name in ("many", "few", "got"))
        head = b"<13>Oct 11 22:14:15 host app: "
        for path, count in ((many, LINES), (few, FEW)):
            path.write_bytes((head + b"x" * (LENGTH - 1 - len(head)) + b"\n") * count)
        runs = {
            "beep, window 4096": (many, lambda lines: beep_run("4096", lines, got)),
            "beep, window 65536": (many, lambda lines: beep_run("65536", lines, got)),
            "rsyslog, TCP": (many, lambda lines: rsyslog_run("tcp", lines, got, folder)),
            "rsyslog, RELP, 128": (few, lambda lines: rsyslog_run("relp", lines, got, folder)),
            "rsyslog, RELP, 8192": (few, lambda lines: rsyslog_run("wide", lines, got, folder)),
        }
        found = {name: [] for name in runs}
        for _ in range(rounds):
            for name, (lines, make) in runs.items():
                found[name].append(make(lines))
                if not filecmp.cmp(lines, got, shallow=False):
                    sys.exit(f"{name}: what the collector wrote isn't what was sent")
        print(f"{'':20} {'lines/s':>10} {'us/line':>8} {'collector MB':>13}")
        for name, made in found.items():
            took, used, memory = (statistics.median(column) for column in zip(*made))
            count = runs[name][0].stat().st_size // LENGTH
            print(f"{name:20} {count / took:10.0f} {used / count * 1e6:8.2f} {memory:13.1f}")


PROGRAM = program()

if __name__ == "__main__":
    main()
