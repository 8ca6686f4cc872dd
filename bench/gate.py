#!/usr/bin/env python3
"""Processor seconds that the gate takes, crate by crate and edit by edit.

    bench/gate.py [WORD..]

The words are a command, by default `rt ci`. It is run in this checkout, and what the provers that it starts take is read from
/proc twice a second. At the end come the seconds of each crate's own proof, of the proof with its tests, of the check that its must-fail
edits begin with, and of each edit; then the processor minutes of the whole gate, and those of the first command: the proofs of the
crates that the program stands on, which `./pegdrauna` makes before its first answer on a new machine. What an earlier run kept takes
no time: on a machine that keeps nothing the sums are what both cost.
"""

import collections
import os
import pathlib
import subprocess
import sys
import threading

TICKS = os.sysconf("SC_CLK_TCK")
ROOT = pathlib.Path(__file__).resolve().parent.parent
CRATES = ROOT / "crates"
COLUMNS = ("proof", "tests", "seed", "edits")
PROGRAM = "verify_command"


def words_after(words, option):
    """The word behind an option, or an empty one."""
    return words[words.index(option) + 1] if option in words[:-1] else ""


def read(process):
    """A prover's start, the crate and column that its seconds count for, and the seconds so far; or None."""
    folder = f"/proc/{process}"
    with open(f"{folder}/cmdline", encoding="utf-8", errors="replace") as file:
        words = file.read().split("\0")
    crate = words_after(words, "--crate-name")
    if os.path.basename(words[0]) != "rattle" or not crate:
        return None
    with open(f"{folder}/stat", encoding="utf-8", errors="replace") as file:
        fields = file.read().rpartition(")")[2].split()
    kept = os.path.basename(words_after(words, "--incremental"))
    if "rt-edit" in os.readlink(f"{folder}/cwd"):
        column = kept if kept == "seed" or kept.isdigit() else "edits"
    else:
        column = "tests" if "--test" in words else "proof"
    return fields[19], (crate, column), (int(fields[11]) + int(fields[12])) / TICKS


def parent_of(process):
    """The process that started this one, or an empty word."""
    try:
        with open(f"/proc/{process}/stat", encoding="utf-8", errors="replace") as file:
            return file.read().rpartition(")")[2].split()[1]
    except OSError:
        return ""


def is_below(process, root):
    """Whether a process was started by the root process, or by one below it."""
    while process not in ("", "0", "1"):
        if process == root:
            return True
        process = parent_of(process)
    return False


def sample(seconds, root):
    """Notes what each prover below the root process has taken."""
    for process in filter(str.isdigit, os.listdir("/proc")):
        try:
            found = read(process)
        except OSError:
            continue
        if found and is_below(process, root):
            start, counted, taken = found
            seconds[process, start, counted] = taken


def edit_name(crate, number):
    """The file of a crate's edit, by its number in the order of names."""
    edits = sorted((CRATES / crate / "must-fail").glob("*.edit"))
    return edits[number].stem if number < len(edits) else str(number)


def crates_of_program():
    """The program's crate and those that it stands on, by crates.txt."""
    below = {}
    for line in (ROOT / "crates.txt").read_text(encoding="utf-8").splitlines():
        name, colon, stands_on = line.partition("#")[0].partition(":")
        if colon:
            below[name.split()[0]] = stands_on.split()
    found, waiting = set(), [PROGRAM]
    while waiting:
        crate = waiting.pop()
        if crate in below and crate not in found:
            found.add(crate)
            waiting += below[crate]
    return found


def main():
    """Runs the command and prints the tables; the status is the command's."""
    command = sys.argv[1:] or ["rt", "ci"]
    seconds, ended = {}, threading.Event()
    running = subprocess.Popen(command, cwd=ROOT)

    def watch():
        while not ended.wait(0.5):
            sample(seconds, str(running.pid))

    watcher = threading.Thread(target=watch)
    watcher.start()
    status = running.wait()
    ended.set()
    watcher.join()
    sums, edits = collections.Counter(), collections.Counter()
    for (_, _, (crate, column)), taken in seconds.items():
        sums[crate, column if column in COLUMNS else "edits"] += taken
        if column.isdigit():
            edits[crate, int(column)] += taken
    print(f"{'crate':<20}" + "".join(f"{it:>8}" for it in COLUMNS))
    for crate in sorted({crate for crate, _ in sums}):
        print(f"{crate:<20}" + "".join(f"{sums[crate, it]:>8.0f}" for it in COLUMNS))
    print(f"{'sum':<20}" + "".join(f"{sum(taken for (_, at), taken in sums.items() if at == it):>8.0f}" for it in COLUMNS))
    for (crate, number), taken in edits.most_common():
        print(f"{taken:>8.0f}  {crate}/{edit_name(crate, number)}")
    first = sum(sums[crate, "proof"] for crate in crates_of_program())
    print(f"the whole gate: {sum(sums.values()) / 60:.0f} processor minutes; the first command: {first / 60:.0f}")
    return status


if __name__ == "__main__":
    sys.exit(main())
