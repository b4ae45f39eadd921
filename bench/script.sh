#!/usr/bin/env bash
# Instructions of one line of a script, reading, call and printing, by callgrind over the program drive: the difference of a run with
# twice as many turns, by the lines more. Then lines a second on this machine, of the fastest of five runs. Needs rt, rustc and valgrind.
set -euo pipefail
cd "$(dirname "$0")/.."
tools/build drive > /dev/null
out=$(mktemp -d)
trap 'rm -rf "$out"' EXIT
rustc -C opt-level=3 --edition 2021 -o "$out/script" bench/script.rs

count() { # SCRIPT: the instructions of a run
    valgrind --tool=callgrind --callgrind-out-file="$out/counts" target/bin/drive "$out/table" "$1" > "$out/printed" 2> "$out/error"
    sed -n 's/^summary: //p' "$out/counts"
}
nanoseconds() { # SCRIPT: of the fastest of five runs
    local begin least=
    for _ in 1 2 3 4 5; do
        begin=$(date +%s%N); target/bin/drive "$out/table" "$1" > /dev/null
        begin=$(($(date +%s%N) - begin)); [ -n "$least" ] && [ "$least" -le $begin ] || least=$begin
    done
    echo "$least"
}

printf '%-7s %-22s %12s\n' table line instructions
for table in case12 large; do
    turns=2000
    "$out/script" $table "$out" $turns > "$out/rows"
    while read -r row lines; do
        once=$(count "$out/$row.once"); twice=$(count "$out/$row.twice")
        printf '%-7s %-22s %12d\n' $table "$row" $(((twice - once) / (turns * lines)))
    done < "$out/rows"
done
printf '%-7s %-22s %12s\n' table line 'lines/s'
for table in case12 large; do
    turns=500000
    "$out/script" $table "$out" $turns > "$out/rows"
    for row in send_request_confirm tick marks; do
        lines=$(awk -v row=$row '$1 == row { print $2 }' "$out/rows")
        printf '%-7s %-22s %12d\n' $table $row $((2 * turns * lines * 1000000000 / $(nanoseconds "$out/$row.twice")))
    done
done
