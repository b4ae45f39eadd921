#!/usr/bin/env bash
# The size of the archive, code and constants of each function, and the stack that each exported call needs. Constants that the
# compiler keeps for several functions stand under their section, as `cst16`. The stack is measured:
# every call of bench/layer.rs is made on a painted stack of its own, and the deepest byte that it changed is looked for, under
# two paints. It has the return address, and the arguments from the seventh on. Functions that are no export have
# their stack in that of their callers. Needs target/staticlib/libexports.a, rustc and size; x86-64 alone.
set -euo pipefail
cd "$(dirname "$0")/.."
archive=target/staticlib/libexports.a
[ -f $archive ] || { echo "size: run 'tools/build exports' first" >&2; exit 2; }
out=$(mktemp -d)
trap 'rm -rf "$out"' EXIT
rustc -C opt-level=3 -C panic=abort --edition 2021 -o "$out/stack" bench/stack.rs -L target/staticlib -l static=exports
"$out/stack" > "$out/depths"

size $archive | awk 'NR > 1 { printf "code and constants %d, data %d, zeroed data %d bytes\n", $1, $2, $3 }'
printf '%-32s %6s %9s %6s\n' function code constants stack
size -A $archive | awk '
    FNR == NR { stack["birnenschloss_" $1] = $2; next }
    sub(/^\.text\./, "", $1) { code[$1] += $2 }
    sub(/^\.rodata\./, "", $1) { constants[$1] += $2 }
    END {
        for (f in constants) code[f] += 0
        for (f in code) printf "%-32s %6d %9d %6s\n", f, code[f], constants[f], stack[f]
    }' "$out/depths" - | sort
