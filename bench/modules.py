"""Builds the modules of the benchmarks: valid modules of WebAssembly 1.0 without floats, of about a wanted size.

Each builder takes a size in bytes and answers a module's bytes, at most that many, all within the limits of the tool
(10,000 functions, 100 blocks open at once, 4 MiB).
"""

HEADER = bytes.fromhex("0061736d01000000")
MEBIBYTE = 1 << 20
MOST_FUNCTIONS = 10_000
MOST_NESTING = 100
END = b"\x0b"


def u32(number):
    """The shortest spelling of an unsigned number."""
    spelled = bytearray()
    while number >= 0x80:
        spelled.append(number & 0x7F | 0x80)
        number >>= 7
    spelled.append(number)
    return bytes(spelled)


def vector(entries):
    return u32(len(entries)) + b"".join(entries)


def section(number, contents):
    return bytes([number]) + u32(len(contents)) + contents


def code(instructions):
    """A code entry without declared locals."""
    body = vector([]) + instructions + END
    return u32(len(body)) + body


def of_bodies(bodies):
    """A module of functions of type [] -> [] over one mutable i32 global."""
    return b"".join([
        HEADER,
        section(1, vector([bytes.fromhex("600000")])),
        section(3, vector([u32(0)] * len(bodies))),
        section(6, vector([bytes.fromhex("7f0141000b")])),
        section(10, vector([code(body) for body in bodies])),
    ])


# Seven bytes: the global's value plus one, back into the global.
COUNT_UP = bytes.fromhex("230041016a2400")


def many_functions(size):
    """Many small functions, up to 10,000 of them."""
    count = min(MOST_FUNCTIONS, size // 64)
    # The other bytes: the section's frame, and six for each function.
    turns = max(1, (size - 64 - 6 * count) // count // len(COUNT_UP))
    return of_bodies([COUNT_UP * turns] * count)


def one_function(size):
    """One large function."""
    return of_bodies([COUNT_UP * ((size - 64) // len(COUNT_UP))])


def deep_nesting(size):
    """One function of blocks, each as deep as is allowed."""
    tower = b"\x02\x40" * MOST_NESTING + END * MOST_NESTING
    return of_bodies([tower * ((size - 64) // len(tower))])


def many_bytes(size):
    """One data segment of many bytes."""
    segment = u32(0) + bytes.fromhex("41000b")
    count = size - 64
    return b"".join([
        HEADER,
        section(5, vector([b"\x00" + u32(count // 65_536 + 1)])),
        section(11, vector([segment + u32(count) + bytes(count)])),
    ])


DECODED = {
    "many small functions": many_functions,
    "one large function": one_function,
    "many data bytes": many_bytes,
    "deep nesting": deep_nesting,
}


def million_instructions():
    """A body of one million instructions, `nop` and `end` among them."""
    return of_bodies([b"\x01" * 999_999])


def wide_table(entries):
    """A `br_table` of so many entries, each the outermost label of a hundred blocks."""
    table = b"\x41\x00\x0e" + vector([u32(MOST_NESTING - 1)] * entries) + u32(0)
    return of_bodies([b"\x02\x40" * MOST_NESTING + table + END * MOST_NESTING])


def table_among_results(entries):
    """A `br_table` of so many entries to labels with a result, in code that can't be reached."""
    table = b"\x00\x41\x00\x0e" + vector([u32(k % MOST_NESTING) for k in range(entries)]) + u32(0)
    return of_bodies([b"\x02\x7f" * MOST_NESTING + table + END * MOST_NESTING + b"\x1a"])


def many_operands(count):
    """A body that leaves many operands, one on another, and drops them again."""
    return of_bodies([b"\x41\x00" * count + b"\x1a" * count])


def exports_named(names):
    """Exports of one function by these names."""
    body = code(b"")
    return b"".join([
        HEADER,
        section(1, vector([bytes.fromhex("600000")])),
        section(3, vector([u32(0)])),
        section(7, vector([u32(len(name)) + name + b"\x00\x00" for name in names])),
        section(10, vector([body])),
    ])


def many_exports(count):
    """So many exports, all of different names."""
    return exports_named([b"%d" % k for k in range(count)])


# The library's hasher, whose seed is fixed: its first state and its multiplier.
HASH_STATE = 0x243F6A8885A308D3
HASH_MULTIPLIER = 0x9E3779B97F4A7C15
WORD = (1 << 64) - 1


def folded(left, right):
    product = left * right
    return product & WORD ^ product >> 64


def colliding_exports(count):
    """So many exports whose names of 32 bytes all have one hash under the library's hasher.

    The third word of each name is the state after the first two, so the last product is 0 whatever the fourth word is.
    """
    for trial in range(1 << 20):
        front = b"%016d" % trial
        left = int.from_bytes(front[:8], "little") ^ (HASH_STATE + 32)
        right = int.from_bytes(front[8:], "little") ^ HASH_MULTIPLIER
        third = folded(left, right).to_bytes(8, "little")
        if third.isascii():
            return exports_named([front + third + b"%08d" % k for k in range(count)])
    raise AssertionError("no such name")


CHECKED = {
    "a million instructions": million_instructions,
    "br_table of 100,000 entries": lambda: wide_table(100_000),
    "br_table of 200,000 entries": lambda: wide_table(200_000),
    "br_table of 100,000 in dead code": lambda: table_among_results(100_000),
    "100,000 operands": lambda: many_operands(100_000),
    "200,000 operands": lambda: many_operands(200_000),
    "100,000 exports": lambda: many_exports(100_000),
    "200,000 exports": lambda: many_exports(200_000),
    "50,000 exports of one hash": lambda: colliding_exports(50_000),
    "100,000 exports of one hash": lambda: colliding_exports(100_000),
}
