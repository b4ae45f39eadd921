#!/usr/bin/env bash
# The program drive against the independent one of tests/layer/script.rs, on some 100,000 random lines, right and damaged, and
# once on a million. Needs target/bin/drive and rustc. `tests/drive.sh SEED COUNT` takes another seed and more lines.
set -euo pipefail
cd "$(dirname "${BASH_SOURCE[0]}")/.."
program=target/bin/drive
[ -x "$program" ] || { echo "drive.sh: $program is missing: run 'tools/build drive' first" >&2; exit 2; }
out=$(mktemp -d)
trap 'rm -rf "$out"' EXIT
rustc -O --edition 2021 --cfg own -o "$out/drive" tests/drive/main.rs
timeout 900 "$out/drive" "$program" "$out" "$@"
