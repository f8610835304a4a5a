#!/bin/sh
# Runs the built program on scripts that end in each status which a run can be made to end in, and compares its output and its status.
# Ends with 0 where all are as told.
here=$(cd "$(dirname "$0")/.." && pwd)
program="$here/crates/jspirun/out/jspirun"
folder=$(mktemp -d) || exit 1
trap 'rm -rf "$folder"' EXIT
cd "$folder" || exit 1
failed=0

# A case: its status, its output, and the words. A backslash and n stand for a line feed.
ends() {
    wanted_status=$1
    printf "$2" >wanted
    shift 2
    "$program" "$@" >written
    status=$?
    if [ "$status" != "$wanted_status" ] || ! cmp -s wanted written; then
        echo "statuses: '$*' ended with $status in place of $wanted_status, and wrote:" >&2
        cat written >&2
        failed=1
    fi
}

printf 'print("a", 6 * 7);\nprint();\n' >done.js
printf 'print(1);\nlet f = new WebAssembly.Instance(new WebAssembly.Module(readbuffer("m"))).exports.f;\n' >loads.js
printf '\0asm\1\0\0\0\1' >cut.wasm
printf 'print("b" - 1);' >left.js
printf 'let fib = new WebAssembly.Instance(new WebAssembly.Module(readbuffer("fib"))).exports.fib;\nprint(fib(10001));\n' >deep.js
printf 'print(' >refused.js
head -c 1048577 /dev/zero | tr '\0' ' ' >long.js
head -c 1048576 /dev/zero | tr '\0' ' ' >longest.js

ends 0 'a 42\n\n' run done.js
ends 0 '' run longest.js
ends 0 '6765 55\n' run --module "fib=$here/examples/fib.wasm" "$here/examples/fib.js"
ends 0 '0 1277644989 1242390873\n' run --module "crc=$here/examples/crc.wasm" "$here/examples/crc.js"
ends 0 '277626 15267761 8390652\n' run --module "sort=$here/examples/sort.wasm" "$here/examples/sort.js"
ends 0 '200099 803126 0\n' run --module "words=$here/examples/words.wasm" "$here/examples/words.js"
ends 1 '1\nuncaught: CompileError\n' run --module m=cut.wasm loads.js
ends 1 'uncaught: RangeError\n' run --module "fib=$here/examples/fib.wasm" deep.js
ends 2 'usage: jspirun run [--steps N] [--module NAME=PATH]... SCRIPT\n'
ends 2 'usage: jspirun run [--steps N] [--module NAME=PATH]... SCRIPT\n' run -- done.js
ends 3 'script: not yet\n' run refused.js
ends 4 'budget: needs 1, left 0\n' run --steps 1 done.js
ends 5 'outside: text-number at 10\n' run left.js
ends 6 '' run absent.js
ends 6 '' run --module m=absent.wasm done.js
ends 9 'too long: long.js\n' run long.js
ends 9 'too long: long.js\n' run --module m=absent.wasm long.js

# A write that fails: 7, and nothing more is claimed of what was written.
if [ -w /dev/full ]; then
    "$program" run done.js >/dev/full
    status=$?
    if [ "$status" != 7 ]; then
        echo "statuses: a full output ended with $status in place of 7" >&2
        failed=1
    fi
fi
exit $failed
