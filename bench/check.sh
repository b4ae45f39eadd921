#!/usr/bin/env bash
# Seconds of the check from nothing, crate by crate, each after those below it: wall, and processor (user and system). It runs
# in a fresh clone of the committed tree, since all that rt keeps lies in crates/NAME/out. Then the same of an edit: `rt check` after a
# change in one proof, with the modules that were checked anew. Fails where a crate is not proved, or where rt began with what another
# copy of the repository on this machine had kept: remove that one's crates/*/out first. Needs rt and git.
set -euo pipefail
cd "$(dirname "$0")/.."
out=$(mktemp -d)
trap 'rm -rf "$out"' EXIT
git clone -q . "$out/clone"
cd "$out/clone"
TIMEFORMAT='%R %U %S'

in_crate() { (cd "crates/$1" && rt "$2"); }
timed() { # NAME CRATE COMMAND: a row with the name, wall and processor of rt's command
    local times
    times=$( { time in_crate "$2" "$3" > "$out/said" 2>&1; } 2>&1 ) || { echo "$1 not proved"; return; }
    if grep 'begins with what a check kept in' "$out/said" >&2; then echo "$1 not from nothing"; return; fi
    awk -v name="$1" '{ printf "%-14s %7.1f %7.1f\n", name, $1, $2 + $3 }' <<< "$times"
}
edit() { # CRATE PROOF, a file or the folder of a function: the first run fills what rt keeps, the timed one follows the change, which is then undone
    local proof=crates/$1/proofs/$2
    if [ -d "$proof" ]; then proof=$(find "$proof" -name '*.antt' | sort | head -n 1); fi
    [ -f "$proof" ] || { echo "check: crates/$1/proofs/$2 has no proof" >&2; exit 1; }
    in_crate "$1" check > /dev/null 2>&1
    echo '-- Changed.' >> "$proof"
    timed "edit $1" "$1" check
    sed -n "s|^crate $1: modules|    $2: modules|p" "$out/said"
    git checkout -q .
}

printf '%-14s %7s %7s\n' crate wall cpu
# `rt lib` proves a library and leaves it for the crates above
sed -n 's/^\([a-z][a-z0-9_]*\)\( staticlib\)\{0,1\}:.*/\1/p' crates.txt | while read -r crate; do
    if [ -f "crates/$crate/src/main.rt" ]; then timed "$crate" "$crate" check; else timed "$crate" "$crate" lib; fi
done | tee "$out/rows"
awk '{ wall += $2; cpu += $3 } END { printf "%-14s %7.1f %7.1f\n", "total", wall, cpu }' "$out/rows"
edit memory Rows.antt
edit memory write64
edit layer Admitted.antt
edit object_calls sending/send
! grep -E 'not (proved|from nothing)' "$out/rows" >&2
