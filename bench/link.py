#!/usr/bin/env python3
"""Steps a second of `link`, beside `wasm-interp` of the package wabt where it is installed.

    bench/link.py [PROGRAM]

PROGRAM is the built program, by default that of this checkout. It runs scripts that load one module and call its one
export, which counts down a loop; how many steps that takes is known, and is tested by scripts that allow exactly so many
steps and one less. The first rows are loops of about 1,000,000 and 10,000,000 steps over one kind of instruction: a step
costs the same in both where the last columns agree. The next rows are the arithmetic loop again in a module of 4 MiB, and
above 9,000 waiting frames: what a step costs there, without what loading takes, is to be that of the first rows. In the
last rows the loop's body is long: a branch back over all of it, and a block around it that is opened and left in each turn.
"""

import os
import shutil
import sys
import tempfile

import measure
import modules
from decode import PROGRAM

OTHER = "wasm-interp"
SIZES = (1_000_000, 10_000_000)
MOST_STEPS = 100_000_000

# Local 0 less one, and back to the loop at this depth while it isn't 0: five steps a turn.
COUNT_DOWN = bytes.fromhex("200041016b22000d")
NOP = b"\x01"
MEMORY = modules.section(5, bytes.fromhex("010001"))


def sleb(number):
    """The shortest spelling of a signed number that isn't negative."""
    spelled = bytearray()
    while number >= 0x40:
        spelled.append(number & 0x7F | 0x80)
        number >>= 7
    spelled.append(number)
    return bytes(spelled)


def code(instructions):
    """A code entry with two i32 locals."""
    body = bytes.fromhex("01027f") + instructions + modules.END
    return modules.u32(len(body)) + body


def module(bodies, after=b"", before_code=b""):
    """Functions of type [] -> [], of which function 0 is exported; sections before the code, and a section after it."""
    return b"".join([
        modules.HEADER,
        modules.section(1, bytes.fromhex("01600000")),
        modules.section(3, modules.vector([modules.u32(0)] * len(bodies))),
        before_code,
        modules.section(7, bytes.fromhex("0101660000")),
        modules.section(10, modules.vector([code(body) for body in bodies])),
        after,
    ])


def loop(turns, body, depth=0):
    """So many turns of a body, and the count at its end. Beside the turns: a constant, a set, the loop, and its end."""
    return b"\x41" + sleb(turns) + bytes.fromhex("21000340") + body + COUNT_DOWN + bytes([depth]) + modules.END


# Each kind: the body of its loop, the steps of one turn, further functions, and sections before the code.
KINDS = {
    "arithmetic": (bytes.fromhex("200141036c2101"), 9, [], b""),
    "memory": (bytes.fromhex("4108410828020041016a360200"), 11, [], MEMORY),
    "calls": (bytes.fromhex("1001"), 7, [b""], b""),
    # Two blocks, and a choice by the last bit of the count which of them is left: every second turn has an `end` more.
    "br_table": (bytes.fromhex("0240024020004101710e0100010b0b"), 11.5, [], b""),
}


def built(kind, steps, after=b"", padding=()):
    """A module of a kind whose call takes about so many steps, and how many exactly: an even number of turns, and five
    steps around them."""
    body, each, others, sections = KINDS[kind]
    turns = int((steps - 5) / each) // 2 * 2
    bodies = [loop(turns, body)] + others + list(padding)
    return module(bodies, after, sections), round(turns * each) + 5


def in_large(steps):
    """The arithmetic loop, in a module of 4 MiB: four functions of a million instructions each."""
    return built("arithmetic", steps, padding=[NOP * 1_000_000] * 4)


def on_frames(steps):
    """The arithmetic loop above 9,000 frames. Function 0 sets global 0 and calls function 1, which calls itself while the
    global, one less each time, isn't 0, and then runs the loop."""
    frames = 9000
    body, each, _, _ = KINDS["arithmetic"]
    # Each call but the last: the global less one, a test that it isn't 0, a call, and two ends.
    down = bytes.fromhex("230041016b24002300") + bytes.fromhex("0440" + "1001" + "05")
    around = 2 + 1 + 1 + frames * 6 + (frames - 1) * 3 + 1 + 1
    turns = int((steps - around) / each) // 2 * 2
    first = b"\x41" + sleb(frames) + bytes.fromhex("24001001")
    second = down + loop(turns, body) + modules.END
    return module([first, second], before_code=modules.section(6, bytes.fromhex("017f0141000b"))), turns * each + 4 + around


def back_over(steps):
    """A loop of 100,000 instructions that branches back before them, and never runs them."""
    turns = (steps - 6) // 5
    inside = COUNT_DOWN + b"\x00" + b"\x0c\x01" + NOP * 100_000
    return module([b"\x41" + sleb(turns) + bytes.fromhex("2100" + "0240" + "0340") + inside + modules.END + modules.END]), turns * 5 + 6


def out_of(steps):
    """A loop around a block of 100,000 instructions, which is opened in each turn and left at once."""
    body = bytes.fromhex("0240" + "0c00") + NOP * 100_000 + modules.END
    turns = (steps - 5) // 7
    return module([loop(turns, body)]), turns * 7 + 5


def call(program, folder, steps):
    """The seconds of a script that may take so many steps, and what was said of the call."""
    with open(os.path.join(folder, "script"), "w", encoding="utf-8") as file:
        file.write(f'(script {steps} (load m "{folder}/module") (new a m) (call a "f"))')
    said = os.path.join(folder, "said")
    status, seconds, _ = measure.run([program, "link", os.path.join(folder, "script")], said)
    with open(said, encoding="utf-8") as file:
        lines = file.read().split("\n")
    if status != 0 or lines[0] != "a: made":
        sys.exit(f"link ended with status {status}: {lines}")
    return seconds, lines[1]


def timed(program, folder, bytes_of, steps, exact):
    """The seconds of a module's call. Where `exact`, one step less must not be enough."""
    with open(os.path.join(folder, "module"), "wb") as file:
        file.write(bytes_of)
    seconds, said = call(program, folder, steps)
    if said != 'a "f": values':
        sys.exit(f"{steps} steps are too few: {said}")
    if exact and call(program, folder, steps - 1)[1] != 'a "f": stopped':
        sys.exit(f"{steps} steps are more than it takes")
    return seconds


def beside(folder):
    """The seconds of wabt's interpreter on the same module, if it is installed."""
    if shutil.which(OTHER) is None:
        return None
    path = os.path.join(folder, "module")
    status, seconds, _ = measure.run([OTHER, path, "--run-all-exports"], os.path.join(folder, "other"))
    return seconds if status == 0 else None


def row(program, folder, name, build, sizes):
    """Runs a kind of module at two sizes, and prints a line: seconds, steps a second, and what a step more costs."""
    seconds, counts, other = [], [], None
    for size in sizes:
        bytes_of, steps = build(size)
        seconds.append(timed(program, folder, bytes_of, steps, size == sizes[0]))
        counts.append(steps)
        other = beside(folder)
    each = (seconds[1] - seconds[0]) / (counts[1] - counts[0]) * 1e9
    columns = f"{name:<22}" + "".join(f" {count:>10} {spent:>8.3f}" for count, spent in zip(counts, seconds))
    columns += f" {counts[1] / seconds[1] / 1e6:>9.2f} {each:>9.1f}"
    print(columns + (f" {'-':>11}" if other is None else f" {other:>11.3f}"), flush=True)


def main():
    program = os.path.abspath(sys.argv[1]) if len(sys.argv) > 1 else PROGRAM
    print(f"{'':<22} {'steps':>10} {'seconds':>8} {'steps':>10} {'seconds':>8} {'M steps/s':>9} {'ns a step':>9} {OTHER:>11}")
    with tempfile.TemporaryDirectory() as folder:
        for kind in KINDS:
            row(program, folder, kind, lambda steps, kind=kind: built(kind, steps), SIZES)
        row(program, folder, "in 4 MiB", in_large, SIZES)
        row(program, folder, "above 9,000 frames", on_frames, SIZES)
        row(program, folder, "back over 100,000", back_over, SIZES)
        row(program, folder, "out of 100,000", out_of, (10_000, 20_000))


if __name__ == "__main__":
    main()
