#!/usr/bin/env python3
"""Measures what a window brings on a long path: `beep send` to `beep listen` through a relay that delays each direction.

usage: bench/path.py [MILLISECONDS]

The relay holds what it reads for MILLISECONDS (25) before it writes it on, so that a round trip takes twice as long. As many
octets are sent in lines of 1,000 as 100 windows have. The table has, for each window, the kB a second from the dial to the end of the
sender, and what a window in each round trip would bring: no sender of BEEP can do more, since a SEQ opens one window at most.
"""
import asyncio
import socket
import subprocess
import sys
import tempfile
import time

from timed import program

WINDOWS = [4096, 16384, 65536]
LENGTH = 1000
ROUNDS = 100


def free_port():
    with socket.socket() as link:
        link.bind(("127.0.0.1", 0))
        return link.getsockname()[1]


async def carry(reader, writer, seconds):
    """Writes what is read, each piece so many seconds after it came."""
    pieces = asyncio.Queue()

    async def give():
        while True:
            due, piece = await pieces.get()
            await asyncio.sleep(max(0, due - time.monotonic()))
            if not piece:
                break
            writer.write(piece)
            await writer.drain()
        writer.write_eof()

    giving = asyncio.create_task(give())
    while True:
        piece = await reader.read(65536)
        pieces.put_nowait((time.monotonic() + seconds, piece))
        if not piece:
            break
    await giving


async def measure(window, seconds):
    near, far = free_port(), free_port()
    collector = await asyncio.create_subprocess_exec(PROGRAM, "listen", "--port", str(far), "--window", str(window),
                                                     stdout=subprocess.DEVNULL, stderr=subprocess.DEVNULL)
    await asyncio.sleep(0.3)

    async def serve(reader, writer):
        far_reader, far_writer = await asyncio.open_connection("127.0.0.1", far)
        await asyncio.gather(carry(reader, far_writer, seconds), carry(far_reader, writer, seconds))

    server = await asyncio.start_server(serve, "127.0.0.1", near)
    with tempfile.TemporaryFile() as lines:
        size = ROUNDS * window
        lines.write((b"x" * (LENGTH - 1) + b"\n") * (size // LENGTH))
        lines.seek(0)
        start = time.perf_counter()
        sender = await asyncio.create_subprocess_exec(PROGRAM, "send", "--host", "127.0.0.1", "--port", str(near), stdin=lines,
                                                      stderr=subprocess.DEVNULL)
        if await sender.wait() != 0:
            sys.exit("the sender fails")
        took = time.perf_counter() - start
    await collector.wait()
    server.close()
    return size / took


async def main():
    seconds = (float(sys.argv[1]) if len(sys.argv) > 1 else 25.0) / 1000
    print(f"window     kB/s  window over round trip of {2000 * seconds:.0f} ms")
    for window in WINDOWS:
        speed = await measure(window, seconds)
        print(f"{window:6} {speed / 1000:8.0f} {window / (2 * seconds) / 1000:8.0f}")


PROGRAM = program()

if __name__ == "__main__":
    asyncio.run(main())
