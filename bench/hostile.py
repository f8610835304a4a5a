#!/usr/bin/env python3
"""Times the built program on names that collide in a hash table with a fixed seed, against as many names that don't, and prints
the ratio: about 1 where no such table holds texts of a file.

The names collide in the low bits of SipHash-1-3 with the keys 0, which is what the toolchain's HashMap and HashSet use. They are
searched by a small C program, so a C compiler must be there. Run at the top of the repository: python3 bench/hostile.py
"""
import os
import pathlib
import subprocess
import sys
import tempfile

from linear import LOAD, PROGRAM, module, number, section, timed

COUNT = 20_000
LOW_BITS = 15

SEARCH = r"""
#include <stdint.h>
#include <stdio.h>
#include <stdlib.h>
#include <string.h>
#define ROTL(x, b) (uint64_t)(((x) << (b)) | ((x) >> (64 - (b))))
#define ROUND do { v0 += v1; v2 += v3; v1 = ROTL(v1, 13) ^ v0; v3 = ROTL(v3, 16) ^ v2; v0 = ROTL(v0, 32); \
    v2 += v1; v0 += v3; v1 = ROTL(v1, 17) ^ v2; v3 = ROTL(v3, 21) ^ v0; v2 = ROTL(v2, 32); } while (0)
#define WORD(m) do { v3 ^= (m); ROUND; v0 ^= (m); } while (0)
/* the hash of a text: its bytes and a byte FF */
static uint64_t hash(const unsigned char *text, size_t size) {
    uint64_t v0 = 0x736f6d6570736575, v1 = 0x646f72616e646f6d, v2 = 0x6c7967656e657261, v3 = 0x7465646279746573, m;
    unsigned char all[64];
    size_t n = size + 1, i;
    memcpy(all, text, size);
    all[size] = 0xFF;
    for (i = 0; i + 8 <= n; i += 8) { memcpy(&m, all + i, 8); WORD(m); }
    m = (uint64_t)n << 56;
    for (size_t k = 0; i + k < n; k++) m |= (uint64_t)all[i + k] << (8 * k);
    WORD(m);
    v2 ^= 0xFF; ROUND; ROUND; ROUND;
    return v0 ^ v1 ^ v2 ^ v3;
}
int main(int argc, char **argv) {
    long count = atol(argv[1]);
    uint64_t mask = ((uint64_t)1 << atol(argv[2])) - 1;
    char name[32] = "a0000000000000";
    for (uint64_t k = 0; count > 0; k++) {
        uint64_t x = k;
        for (int i = 13; i > 0; i--) { name[i] = 'a' + x % 26; x /= 26; }
        if ((hash((unsigned char *)name, 14) & mask) == 0) { puts(name); count--; }
    }
    return 0;
}
"""


def colliding(folder):
    """Names whose hashes agree in their low bits."""
    (folder / "search.c").write_text(SEARCH)
    subprocess.run([os.environ.get("CC", "cc"), "-O2", "-o", str(folder / "search"), str(folder / "search.c")], check=True)
    found = subprocess.run([str(folder / "search"), str(COUNT), str(LOW_BITS)], check=True, stdout=subprocess.PIPE)
    return found.stdout.decode().split()


def ordinary():
    """As many names of the same length, which don't collide more than others."""
    return [f"b{i:013d}" for i in range(COUNT)]


def exporting(names):
    """A module of one function that is exported under `f` and each of these names."""
    exports = b"".join(number(len(name)) + name.encode() + b"\0\0" for name in ["f"] + names)
    return module([
        section(1, bytes([1, 0x60, 1, 0x7F, 1, 0x7F])),
        section(3, bytes([1, 0])),
        section(7, number(len(names) + 1) + exports),
        section(10, bytes([1, 4, 0, 0x20, 0, 0x0B])),
    ])


def declaring(names):
    return "".join(f"let {name} = 1;\n" for name in names)


def main():
    if not os.access(PROGRAM, os.X_OK):
        sys.exit("build the program first: ./jspirun run examples/hello.js")
    with tempfile.TemporaryDirectory() as name:
        folder = pathlib.Path(name)
        hostile, plain = colliding(folder), ordinary()
        for shape, made in [
            ("exports of a module", lambda names: (LOAD, exporting(names))),
            ("names of a script", lambda names: (declaring(names), None)),
        ]:
            slow, usual = timed(folder, made(hostile)), timed(folder, made(plain))
            print(f"{shape}, {COUNT} that collide: {slow * 1000:.0f} ms, {slow / usual:.2f} of the time of others")


if __name__ == "__main__":
    main()
