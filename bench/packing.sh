#!/usr/bin/env bash
# Instructions for a pack and an unpack of a slot, in both orders, by callgrind, beside the hand-written Rust of
# packing.rs; and the number of jumps in each compiled function. Needs rt, rustc, valgrind and objdump.
set -euo pipefail
cd "$(dirname "$0")/.."
tools/build slots > /dev/null
out=$(mktemp -d)
trap 'rm -rf "$out"' EXIT
rustc -C opt-level=3 -C panic=abort --edition 2021 -o "$out/packing" bench/packing.rs \
    -L target/staticlib -l static=slots
for order in 0 1; do "$out/packing" same all $order; done

instructions() { # WHO WHAT ORDER SYMBOL
    valgrind --tool=callgrind --callgrind-out-file=/dev/null --toggle-collect="$4" "$out/packing" "$1" "$2" "$3" 2>&1 |
        awk '/Collected/ { print $NF / 1000 }'
}
jumps() { objdump -d --no-show-raw-insn --disassemble="$1" "$out/packing" | awk '$2 ~ /^j/ { n++ } END { print n + 0 }'; }

row() { # CALL ORDER PEER
    p=$(instructions proved $1 $2 birnenschloss_$1)
    h=$(instructions $3 $1 $2 $3_$1)
    name=little; [ $2 = 1 ] && name=big
    awk -v c=$1 -v o=$name -v p="$p" -v w=$3 -v h="$h" 'BEGIN { printf "%-12s %-7s %7s %6s %5s %6.2f\n", c, o, p, w, h, p / h }'
}
printf '%-12s %-7s %7s %12s %6s\n' call order proved peer ratio
for order in 0 1; do row pack_slot $order hand; row pack_slot $order flat; row unpack_slot $order hand; row position $order hand; done
for f in birnenschloss_pack_slot birnenschloss_unpack_slot hand_pack_slot hand_unpack_slot flat_pack_slot; do
    echo "jumps in $f: $(jumps $f)"
done
