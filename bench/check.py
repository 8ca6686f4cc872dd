#!/usr/bin/env python3
"""Time and peak memory of `check`, beside `wasm-validate` of the package wabt and V8's `WebAssembly.validate`, where these
are installed.

    bench/check.py [PROGRAM]
    bench/check.py --beside OTHER [PROGRAM]

PROGRAM is the built program, by default that of this checkout. It is run on the modules of bench/decode.py at 0.5, 1, 2 and
4 MiB, on a body of a million instructions, and on modules that would show a step that takes quadratic time. Growth is
linear where the seconds for each MiB stay about the same from size to size, and from a row of 100,000 to one of 200,000.

With --beside, two built programs are run in turns on modules of 4 MiB: a line for each gives the processor seconds (the
least of the turns), MiB, and bytes of memory for each byte of the module.
"""

import os
import shutil
import subprocess
import sys
import tempfile

import measure
import modules
from decode import PROGRAM, SIZES

OTHER = "wasm-validate"
NODE = "node"

# The least processor seconds of a few calls, in one thread.
VALIDATE = """
const bytes = require("fs").readFileSync(process.argv[1]);
let least = Infinity;
for (let turn = 0; turn < 7; turn++) {
    const before = process.cpuUsage();
    if (!WebAssembly.validate(bytes)) process.exit(1);
    const spent = process.cpuUsage(before);
    least = Math.min(least, (spent.user + spent.system) / 1e6);
}
console.log(least);
"""


def engine(path):
    """The processor seconds of V8's `WebAssembly.validate`, if node is installed and the module is valid there."""
    if shutil.which(NODE) is None:
        return None
    ran = subprocess.run([NODE, "--single-threaded", "-e", VALIDATE, path], capture_output=True, text=True)
    return float(ran.stdout) if ran.returncode == 0 else None


def compared(program, path, sink):
    """The columns for one module: its bytes, seconds, MiB, seconds for each MiB, and the other tool's seconds and the ratio."""
    size = os.path.getsize(path)
    status, seconds, memory = measure.run([program, "check", path], sink)
    if status != 0:
        with open(sink, "rb") as said:
            sys.exit(f"check ended with status {status}: {said.read().decode()}")
    columns = f"{size:>10} {seconds:>9.3f} {memory:>9.1f} {seconds * modules.MEBIBYTE / size:>9.3f}"
    of_engine = engine(path)
    columns += f" {'-' if of_engine is None else f'{of_engine:.3f}':>9}"
    if shutil.which(OTHER) is None:
        return columns
    status, other, _ = measure.run([OTHER, path], sink)
    if status != 0:
        return f"{columns}  {OTHER} refuses the module"
    return f"{columns} {other:>14.3f} {seconds / other:>9.2f}"


def rows():
    """Each module with what it is called."""
    for kind, build in modules.DECODED.items():
        for size in SIZES:
            yield kind, build(size)
    for kind, build in modules.CHECKED.items():
        yield kind, build()


def in_turns(programs):
    """Runs two programs in turns on each kind of module of 4 MiB."""
    print(f"{'':>24} {'program':>9} {'seconds':>9} {'MiB':>9} {'bytes/byte':>11}")
    with tempfile.TemporaryDirectory() as folder:
        path = os.path.join(folder, "module.wasm")
        sink = os.path.join(folder, "said.txt")
        for kind, build in modules.DECODED.items():
            with open(path, "wb") as file:
                file.write(build(4 * modules.MEBIBYTE))
            turns = {name: [] for name in programs}
            for _ in range(5):
                for name, program in programs.items():
                    turns[name].append(measure.spent([program, "check", path], sink))
            for name, rows in turns.items():
                seconds, memory = min(rows)
                share = memory * modules.MEBIBYTE / os.path.getsize(path)
                print(f"{kind:>24} {name:>9} {seconds:>9.3f} {memory:>9.1f} {share:>11.1f}", flush=True)


def main():
    words = sys.argv[1:]
    if len(words) > 1 and words[0] == "--beside":
        program = os.path.abspath(words[2] if len(words) > 2 else PROGRAM)
        in_turns({"other": os.path.abspath(words[1]), "this": program})
        return
    program = os.path.abspath(words[0] if words else PROGRAM)
    if shutil.which(OTHER) is None:
        print(f"{OTHER} is not installed: its columns are left out")
    print(f"{'':>34} {'bytes':>10} {'seconds':>9} {'MiB':>9} {'s/MiB':>9} {'V8':>9} {OTHER:>14} {'ratio':>9}")
    with tempfile.TemporaryDirectory() as folder:
        path = os.path.join(folder, "module.wasm")
        sink = os.path.join(folder, "said.txt")
        for kind, built in rows():
            with open(path, "wb") as file:
                file.write(built)
            print(f"{kind:>34} {compared(program, path, sink)}", flush=True)


if __name__ == "__main__":
    main()
