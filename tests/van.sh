#!/usr/bin/env bash
# README's first command: it plays the van's journey over what is proved, and where rt fails or is missing it says so and plays nothing.
set -euo pipefail
cd "$(dirname "${BASH_SOURCE[0]}")/.."
out=$(mktemp -d)
trap 'rm -rf "$out"' EXIT
fail() { echo "van.sh: $1" >&2; exit 1; }

bash examples/van.sh > "$out/said" || fail "examples/van.sh ended with $?"
grep -q '^build: driver proved' "$out/said" || fail "examples/van.sh shows no line for the crate driver"
diff <(paste examples/van.script examples/van.stdout) <(tail -n "$(wc -l < examples/van.stdout)" "$out/said") || fail "examples/van.sh prints another journey"

# a failing rt, then none, then another journey, in a copy of what the script needs
mkdir -p "$out/copy/examples" "$out/copy/tools" "$out/copy/target/bin" "$out/copy/crates/drive/src" "$out/copy/crates/drive/out" "$out/bin"
cp examples/van.* "$out/copy/examples"
cp tools/build "$out/copy/tools"
cp crates.txt "$out/copy"
cp crates/drive/src/main.rt "$out/copy/crates/drive/src"
printf '#!/bin/sh\necho journey\n' | tee "$out/copy/target/bin/drive" > "$out/copy/crates/drive/out/drive"
printf '#!/bin/sh\necho "crate memory: modules" >&2\necho "logic=proved" >&2\necho the proof of x fails >&2\nexit 1\n' > "$out/bin/rt"
chmod +x "$out/copy/target/bin/drive" "$out/copy/crates/drive/out/drive" "$out/bin/rt"
if PATH="$out/bin:$PATH" bash "$out/copy/examples/van.sh" > "$out/said" 2> "$out/error"; then fail "a failed proof is passed over"; fi
grep -q 'the proof of x fails' "$out/error" || fail "what a failed proof said is not shown"
grep -q '^build: memory proved$' "$out/said" || fail "what was proved before a failed proof is not shown"
if grep -q 'driver proved' "$out/said"; then fail "what was not proved is shown as proved"; fi
if grep -q journey "$out/said"; then fail "the journey is played though a proof failed"; fi
mkdir "$out/tools"
ln -s "$(command -v dirname)" "$out/tools"
if PATH="$out/tools" "$(command -v bash)" "$out/copy/examples/van.sh" > "$out/said" 2> "$out/error"; then fail "a missing rt is passed over"; fi
grep -q 'rt is missing' "$out/error" || fail "a missing rt is not named"
printf '#!/bin/sh\necho "crate drive: modules" >&2\necho "logic=proved" >&2\n' > "$out/bin/rt"
if PATH="$out/bin:$PATH" bash "$out/copy/examples/van.sh" > "$out/said" 2> "$out/error"; then fail "another journey is passed over"; fi
grep -q 'another journey' "$out/error" || fail "another journey is not named"
echo "van.sh: the journey is played as examples/van.stdout has it, and not where a proof fails"
