#!/usr/bin/env python3
"""Times the built program on inputs of a size and of twice and four times that size, and prints the ratios: 2 and 4 are linear.

Run at the top of the repository: python3 bench/linear.py
"""
import os
import pathlib
import subprocess
import sys
import tempfile
import time

PROGRAM = pathlib.Path(__file__).resolve().parent.parent / "crates/jspirun/out/jspirun"


def number(value):
    """An unsigned LEB128 number."""
    out = bytearray()
    while True:
        byte, value = value & 0x7F, value >> 7
        out.append(byte | (0x80 if value else 0))
        if not value:
            return bytes(out)


def section(ident, body):
    return bytes([ident]) + number(len(body)) + body


def module(sections):
    return b"\0asm\1\0\0\0" + b"".join(sections)


def functions(count):
    """A module of so many small functions, of which the first is exported."""
    body = bytes([4, 0, 0x20, 0, 0x0B])
    return module([
        section(1, bytes([1, 0x60, 1, 0x7F, 1, 0x7F])),
        section(3, number(count) + bytes(count)),
        section(7, bytes([1, 1]) + b"f" + bytes([0, 0])),
        section(10, number(count) + body * count),
    ])


def long_body(count):
    """A module of one function with so many additions."""
    body = bytes([0, 0x20, 0]) + bytes([0x41, 1, 0x6A]) * count + bytes([0x0B])
    return module([
        section(1, bytes([1, 0x60, 1, 0x7F, 1, 0x7F])),
        section(3, bytes([1, 0])),
        section(7, bytes([1, 1]) + b"f" + bytes([0, 0])),
        section(10, bytes([1]) + number(len(body)) + body),
    ])


def wide_calls(count):
    """A module with so many calls of a function with as many results of two types in turn, and a small one that is exported."""
    results = bytes([0x7F, 0x7E]) * (count // 2)
    small = bytes([0, 0x20, 0, 0x0B])
    wide = bytes([0, 0x00, 0x0B])
    calls = bytes([0]) + bytes([0x10, 1]) * count + bytes([0x00, 0x0B])
    return module([
        section(1, bytes([2, 0x60, 1, 0x7F, 1, 0x7F, 0x60, 0]) + number(len(results)) + results),
        section(3, bytes([3, 0, 1, 0])),
        section(7, bytes([1, 1]) + b"f" + bytes([0, 0])),
        section(10, bytes([3]) + b"".join(number(len(body)) + body for body in (small, wide, calls))),
    ])


def wide_functions(count):
    """A module with so many functions with as many results, and a small one that is exported."""
    small = bytes([0, 0x20, 0, 0x0B])
    wide = bytes([0, 0x00, 0x0B])
    return module([
        section(1, bytes([2, 0x60, 1, 0x7F, 1, 0x7F, 0x60, 0]) + number(count) + bytes([0x7F]) * count),
        section(3, number(count + 1) + bytes([0]) + bytes([1]) * count),
        section(7, bytes([1, 1]) + b"f" + bytes([0, 0])),
        section(10, number(count + 1) + b"".join(number(len(body)) + body for body in [small] + [wide] * count)),
    ])


LOAD = 'let f = new WebAssembly.Instance(new WebAssembly.Module(readbuffer("m"))).exports.f;\nprint(f(1));\n'


def prints(count):
    return "print(1 + 2 * 3);\n" * count, None


def names(count):
    return "".join(f"let n{i} = {i};\n" for i in range(count)), None


def a_sum(count):
    return "print(" + " + ".join(["1"] * count) + ");\n", None


def a_text(count):
    return 'let a = "";\n' + "print(" + " + ".join(['"xxxxxxxx"'] * count) + ");\n", None


def many_functions(count):
    return LOAD, functions(count)


def one_long_body(count):
    return LOAD, long_body(count)


def calls_of_a_wide_type(count):
    return LOAD, wide_calls(count)


def functions_of_a_wide_type(count):
    return LOAD, wide_functions(count)


SHAPES = [
    ("statements that print", prints, 10_000),
    ("declarations", names, 10_000),
    ("one long sum", a_sum, 50_000),
    ("one long text", a_text, 10_000),
    ("a module of many functions", many_functions, 100_000),
    ("a module of one long body", one_long_body, 500_000),
    ("a module of calls of a wide type", calls_of_a_wide_type, 8_000),
    ("a module of functions of a wide type", functions_of_a_wide_type, 8_000),
]


def timed(folder, made):
    script, bytes_of_module = made
    words = [str(PROGRAM), "run", "--steps", "1000000000"]
    (folder / "s.js").write_text(script)
    if bytes_of_module is not None:
        (folder / "m.wasm").write_bytes(bytes_of_module)
        words += ["--module", f"m={folder / 'm.wasm'}"]
    words.append(str(folder / "s.js"))
    best = None
    for _ in range(3):
        begun = time.monotonic()
        ended = subprocess.run(words, stdout=subprocess.PIPE)
        took = time.monotonic() - begun
        if ended.returncode != 0:
            sys.exit(f"the program ended with {ended.returncode}")
        best = took if best is None else min(best, took)
    return best


def main():
    if not os.access(PROGRAM, os.X_OK):
        sys.exit("build the program first: ./jspirun run examples/hello.js")
    with tempfile.TemporaryDirectory() as name:
        folder = pathlib.Path(name)
        for shape, make, size in SHAPES:
            times = [timed(folder, make(size * k)) for k in (1, 2, 4)]
            ratios = " ".join(f"{t / times[0]:.1f}" for t in times)
            print(f"{shape}, {size} and 2 and 4 times as many: {times[0] * 1000:.0f} ms, ratios {ratios}")


if __name__ == "__main__":
    main()
