"""What the scripts share: the program itself, a run that is timed, and the C program to which some of them compare."""
import os
import subprocess
import time
from pathlib import Path

TOP = Path(__file__).resolve().parent.parent


def program():
    """The path of the program of these sources, which `./beep` builds where it isn't built."""
    told = subprocess.run([TOP / "beep"], env={**os.environ, "BEEP_WHICH": "yes"}, stdout=subprocess.PIPE, check=True)
    return told.stdout.decode().strip()


def run(words):
    """The seconds that a run of these words takes."""
    start = time.perf_counter()
    subprocess.run([str(word) for word in words], check=True)
    return time.perf_counter() - start


def copier(folder):
    """The program bench/copy.c, compiled in a folder."""
    out = Path(folder) / "copy"
    subprocess.run(["gcc", "-O2", "-o", out, TOP / "bench/copy.c"], check=True)
    return out
