#!/usr/bin/env bash
# The proved check against the independent one of table.rs, on some 40,000 tables. Needs target/staticlib/libexports.a and
# rustc. `tests/table.sh SEED COUNT` takes another seed and more tables.
set -euo pipefail
cd "$(dirname "${BASH_SOURCE[0]}")/.."
out=$(mktemp -d)
trap 'rm -rf "$out"' EXIT
rustc -O --edition 2021 -o "$out/table" tests/table.rs -L target/staticlib -l static=exports
"$out/table" "$@"
