#!/usr/bin/env python3
"""Times bodies on the built program, for a size and for ten times the work, and prints the ratios: 10 is linear. Where `wasm-interp` of
WABT stands on the path, the same bodies run on it too, and the ratio between both is printed.

Run at the top of the repository: python3 bench/machine.py
"""
import os
import pathlib
import shutil
import subprocess
import sys
import tempfile
import time

from linear import PROGRAM, module, number, section

I32, I64, FUNCREF = 0x7F, 0x7E, 0x70
GET, SET, TEE, CALL, BR_IF, END, IF, ELSE, LOOP = 0x20, 0x21, 0x22, 0x10, 0x0D, 0x0B, 0x04, 0x05, 0x03


def signed(value):
    """A signed LEB128 number."""
    out = bytearray()
    while True:
        byte, value = value & 0x7F, value >> 7
        if (value == 0 and not byte & 0x40) or (value == -1 and byte & 0x40):
            return bytes(out + bytes([byte]))
        out.append(byte | 0x80)


def i32(value):
    return bytes([0x41]) + signed(value)


def body(locals_, code):
    return locals_ + code + bytes([END])


def whole(bodies, work, table=b""):
    """A module whose last function, `f`, gives what function 0 gives of so much work."""
    bodies = bodies + [body(bytes([0]), i32(work) + bytes([CALL, 0]))]
    types = bytes([2, 0x60, 1, I32, 1, I32, 0x60, 0, 1, I32])
    kinds = bytes([0] * (len(bodies) - 1) + [1])
    sections = [section(1, types), section(3, number(len(bodies)) + kinds)]
    if table:
        sections.append(section(4, table[0]))
    sections.append(section(7, bytes([1, 1]) + b"f" + bytes([0, len(bodies) - 1])))
    if table:
        sections.append(section(9, table[1]))
    return module(sections + [section(10, number(len(bodies)) + b"".join(number(len(b)) + b for b in bodies))])


def fib(n):
    """Fibonacci numbers by two calls of itself."""
    code = bytes([GET, 0]) + i32(2) + bytes([0x48, IF, I32, GET, 0, ELSE])
    code += bytes([GET, 0]) + i32(1) + bytes([0x6B, CALL, 0, GET, 0]) + i32(2) + bytes([0x6B, CALL, 0, 0x6A, END])
    return whole([body(bytes([0]), code)], n)


def turns(count):
    """A loop of arithmetic on i64."""
    code = bytes([LOOP, 0x40, GET, 1, 0x42]) + signed(6364136223846793005) + bytes([0x7E, 0x42]) + signed(1442695040888963407)
    code += bytes([0x7C, SET, 1, GET, 0]) + i32(1) + bytes([0x6B, TEE, 0, BR_IF, 0, END, GET, 1, 0xA7])
    return whole([body(bytes([1, 1, I64]), code)], count)


def indirect(count):
    """A loop that calls a function through a table."""
    code = bytes([LOOP, 0x40, GET, 1]) + i32(0) + bytes([0x11, 0, 0, SET, 1, GET, 0]) + i32(1)
    code += bytes([0x6B, TEE, 0, BR_IF, 0, END, GET, 1])
    one_more = bytes([GET, 0]) + i32(1) + bytes([0x6A])
    table = bytes([1, FUNCREF, 0, 1]), bytes([1, 0]) + i32(0) + bytes([END, 1, 1])
    return whole([body(bytes([1, 1, I32]), code), body(bytes([0]), one_more)], count, table)


def fills(count):
    """A table of so many entries, filled ten times."""
    turn = i32(0) + bytes([0xD0, FUNCREF, GET, 0, 0xFC, 0x11, 0])
    code = bytes([0xD0, FUNCREF, GET, 0, 0xFC, 0x0F, 0, 0x1A]) + turn * 10 + bytes([0xFC, 0x10, 0])
    table = bytes([1, FUNCREF, 0, 0]), bytes([0])
    return whole([body(bytes([0]), code)], count, table)


SHAPES = [
    ("fib of 22 and of 27, 11 times the calls", fib, 22, 27),
    ("2 and 20 million turns of i64 arithmetic", turns, 2_000_000, 20_000_000),
    ("300,000 and 3 million indirect calls", indirect, 300_000, 3_000_000),
    ("10 fills of 100,000 and of 1,000,000 entries", fills, 100_000, 1_000_000),
]

SCRIPT = 'let f = new WebAssembly.Instance(new WebAssembly.Module(readbuffer("m"))).exports.f;\nprint(f());\n'


def took(words):
    best = None
    for _ in range(3):
        begun = time.monotonic()
        ended = subprocess.run(words, stdout=subprocess.PIPE)
        seconds = time.monotonic() - begun
        if ended.returncode != 0:
            sys.exit(f"{words[0]} ended with {ended.returncode}")
        best = seconds if best is None else min(best, seconds)
    return best


def main():
    if not os.access(PROGRAM, os.X_OK):
        sys.exit("build the program first: ./jspirun run examples/hello.js")
    other = shutil.which("wasm-interp")
    with tempfile.TemporaryDirectory() as name:
        folder = pathlib.Path(name)
        (folder / "s.js").write_text(SCRIPT)
        for shape, make, small, large in SHAPES:
            ours, theirs = [], []
            for size in (small, large):
                path = folder / "m.wasm"
                path.write_bytes(make(size))
                ours.append(took([str(PROGRAM), "run", "--steps", "1000000000000", "--module", f"m={path}", str(folder / "s.js")]))
                if other:
                    theirs.append(took([other, "--run-all-exports", str(path)]))
            line = f"{shape}: {ours[0] * 1000:.0f} and {ours[1] * 1000:.0f} ms, ratio {ours[1] / ours[0]:.1f}"
            if other:
                line += f"; wasm-interp {theirs[1] * 1000:.0f} ms, ratio to it {ours[1] / theirs[1]:.2f}"
            print(line)


if __name__ == "__main__":
    main()
