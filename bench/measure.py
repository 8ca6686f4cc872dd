"""Runs a program and measures it."""

import os
import subprocess
import time


# So often is each row run: the least time is the one that other work on the machine disturbed least.
TURNS = 3


def run(words, sink):
    """Runs the words a few times with standard output sent to the file `sink`.

    Answers the exit status, the least seconds, and the peak memory in MiB of that run.
    """
    return min((once(words, sink) for _ in range(TURNS)), key=lambda row: row[1])


def once(words, sink):
    """Runs the words one time."""
    with open(sink, "wb") as output:
        begun = time.monotonic()
        process = subprocess.Popen(words, stdin=subprocess.DEVNULL, stdout=output)
        _, status, usage = os.wait4(process.pid, 0)
        seconds = time.monotonic() - begun
    process.returncode = os.waitstatus_to_exitcode(status)
    return process.returncode, seconds, usage.ru_maxrss / 1024


def spent(words, sink):
    """The processor seconds, of the program and of the system for it, and the peak memory in MiB of one run that must succeed."""
    with open(sink, "wb") as output:
        process = subprocess.Popen(words, stdin=subprocess.DEVNULL, stdout=output)
        _, status, usage = os.wait4(process.pid, 0)
    process.returncode = os.waitstatus_to_exitcode(status)
    if process.returncode != 0:
        raise SystemExit(f"{' '.join(words)} ended with status {process.returncode}")
    return usage.ru_utime + usage.ru_stime, usage.ru_maxrss / 1024
