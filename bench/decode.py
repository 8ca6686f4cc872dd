#!/usr/bin/env python3
"""Time and peak memory of `show` on modules of 0.5, 1, 2 and 4 MiB.

    bench/decode.py [PROGRAM]

PROGRAM is the built program, by default that of this checkout. For each kind of module it prints a line a size: the
module's bytes, the seconds and MiB of `show` sent to a file, and both for each MiB of module. Growth is linear where the
last two columns stay about the same from size to size.
"""

import os
import sys
import tempfile

import measure
import modules

PROGRAM = os.path.join(os.path.dirname(__file__), "..", "crates", "verify_command", "out", "verify_command")
SIZES = [modules.MEBIBYTE // 2, modules.MEBIBYTE, 2 * modules.MEBIBYTE, 4 * modules.MEBIBYTE]


def main():
    program = os.path.abspath(sys.argv[1] if len(sys.argv) > 1 else PROGRAM)
    with tempfile.TemporaryDirectory() as folder:
        path = os.path.join(folder, "module.wasm")
        listing = os.path.join(folder, "listing.txt")
        for kind, build in modules.DECODED.items():
            print(f"{kind}\n{'bytes':>10} {'seconds':>9} {'MiB':>9} {'s/MiB':>9} {'MiB/MiB':>9}")
            for size in SIZES:
                built = build(size)
                with open(path, "wb") as file:
                    file.write(built)
                status, seconds, memory = measure.run([program, "show", path], listing)
                if status != 0:
                    sys.exit(f"show ended with status {status}")
                share = len(built) / modules.MEBIBYTE
                print(f"{len(built):>10} {seconds:>9.3f} {memory:>9.1f} {seconds / share:>9.3f} {memory / share:>9.1f}")


if __name__ == "__main__":
    main()
