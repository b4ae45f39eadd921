#!/usr/bin/env bash
# Each call of the layer beside a layer in C that was written by hand for speed (bench/peer/peer.h), in one run. Both check
# the whole table and every stored number in every call, and leave the same bytes: first 200,000 random calls have to
# agree, in answer, memory, request area, statuses, sheets and text. Then, over document 01's case 12 and the large table of
# bench/layer.rs, a line for each call: instructions by callgrind, and nanoseconds (the best of 500 batches of 16 calls,
# the two by turns, each on a fresh copy of the state). What making an empty call takes is subtracted. A ratio is
# proved / peer; none is given where a side has less than 10 ns. `check` is the check of the table alone. Needs
# target/staticlib/libexports.a, gcc, rustc and valgrind.
set -euo pipefail
cd "$(dirname "$0")/.."
[ -f target/staticlib/libexports.a ] || { echo "beside: run 'tools/build exports' first" >&2; exit 1; }
out=$(mktemp -d)
trap 'rm -rf "$out"' EXIT
for part in check objects ipdus sheet; do
    gcc -std=c99 -O2 -Wall -Wextra -Wpedantic -Wconversion -Werror -c -o "$out/$part.o" bench/peer/$part.c
done
ar rcs "$out/libpeer.a" "$out/check.o" "$out/objects.o" "$out/ipdus.o" "$out/sheet.o"
rustc -C opt-level=3 -C panic=abort --edition 2021 -o "$out/beside" bench/beside.rs \
    -L target/staticlib -l static=exports -L "$out" -l static=peer

"$out/beside" agree 1 200000

counts() { # TABLE: for each row the instructions of an empty call, the proved one and the peer's
    valgrind --tool=callgrind --callgrind-out-file="$out/counts" --combine-dumps=yes --toggle-collect=collected \
        --dump-after=collected "$out/beside" counts "$1" > "$out/rows" 2> "$out/error" || {
        cat "$out/rows" "$out/error" >&2
        exit 1
    }
    awk '/^totals:/ { print $2 }' "$out/counts" | head -n $((3 * $(wc -l < "$out/rows"))) | paste -d ' ' - - -
}

printf '%-27s | %21s | %21s\n' '' instructions nanoseconds
printf '%-7s %-19s | %7s %7s %5s | %7s %7s %5s\n' table call proved peer ratio proved peer ratio
for table in case12 large; do
    counts $table > "$out/counted"
    "$out/beside" times $table > "$out/times" || { cat "$out/times" >&2; exit 1; }
    paste -d ' ' "$out/times" "$out/counted" | awk -v table=$table '
        function pair(empty, p, q, least) {
            p -= empty
            q -= empty
            printf " | %7.0f %7.0f %5s", p, q, (p < least || q < least ? "" : sprintf("%.2f", p / q))
        }
        { printf "%-7s %-19s", table, $1; pair($5, $6, $7, 1); pair($2, $3, $4, 10); print "" }'
done
