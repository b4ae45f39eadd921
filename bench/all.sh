#!/usr/bin/env bash
# Every figure of docs/BENCHMARKS.md, and every ratio to the peer in C: the calls beside it (bench/beside.sh), where the two have
# to agree; size and stack of the archive (bench/size.sh); packing beside hand-written Rust (bench/packing.sh). `behind` is a call
# less one that is refused right behind the checks. Ends with status 1 where a call, the archive or a stack is more than 5 % over
# the figure that bench/figures.txt has. With --write the figures are written there, and the table into the document. Needs rt,
# gcc, rustc, valgrind and objdump.
set -euo pipefail
cd "$(dirname "$0")/.."
out=$(mktemp -d)
trap 'rm -rf "$out"' EXIT
tools/build exports > "$out/said" 2>&1 || { cat "$out/said" >&2; exit 1; }

bash bench/beside.sh > "$out/beside" || { cat "$out/beside"; exit 1; }
grep -v ' | ' "$out/beside"
# TABLE CALL, instructions of both, nanoseconds of both
awk '/ [|] / && $3 == "|" && $4 ~ /^[0-9]+$/ { split($0, part, "|"); split(part[2], i, " "); split(part[3], n, " "); print $1, $2, i[1], i[2], n[1], n[2] }' \
    "$out/beside" > "$out/calls"
bash bench/size.sh > "$out/size"
{
    awk '{ print $1, $2, $3 }' "$out/calls"
    awk '/^code and constants/ { print "archive bytes", $4 + 0 } /^birnenschloss/ && NF == 4 { print "stack", substr($1, 15), $4 }' "$out/size"
} > "$out/figures"

awk -v figures=bench/figures.txt '
    BEGIN { while ((getline line < figures) > 0) { split(line, f, " "); written[f[1] " " f[2]] = f[3] }
            printf "%-7s %-19s %9s %8s %8s %6s %7s %7s %6s\n", "table", "call", "written", "proved", "peer", "ratio", "behind", "ns", "ratio" }
    $2 == "refused" { refused[$1] = $3 } $2 == "refused_start" { refused_start[$1] = $3 }
    { behind = $2 ~ /^(check|refused|refused_start)$/ ? "" : $3 - ($2 == "start" ? refused_start[$1] : refused[$1])
      printf "%-7s %-19s %9s %8d %8d %6.2f %7s %7d %6s\n", $1, $2, written[$1 " " $2], $3, $4, $3 / $4, behind, $5, \
          ($5 < 10 || $6 < 10 ? "" : sprintf("%.2f", $5 / $6)) }' "$out/calls"
cat "$out/size"
bash bench/packing.sh

if [ "${1:-}" = --write ]; then
    cp "$out/figures" bench/figures.txt
    python3 bench/document.py "$out/calls"
    exit
fi
awk 'FNR == NR { written[$1 " " $2] = $3; next }
    !(($1 " " $2) in written) { print "all: no figure is written down for " $1 " " $2; bad = 1; next }
    $3 > 1.05 * written[$1 " " $2] { print "all: " $1 " " $2 ": " $3 ", more than 5 % over " written[$1 " " $2]; bad = 1 }
    END { if (!bad) print "all: no figure is more than 5 % over the one written down"; exit bad }' bench/figures.txt "$out/figures"
