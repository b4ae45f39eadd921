#!/usr/bin/env bash
# The proved layer against the independent one of tests/layer, on some 100,000 random calls. Needs target/staticlib/libexports.a
# and rustc. `tests/layer.sh SEED COUNT` takes another seed and more calls.
set -euo pipefail
cd "$(dirname "${BASH_SOURCE[0]}")/.."
out=$(mktemp -d)
trap 'rm -rf "$out"' EXIT
rustc -O --edition 2021 -o "$out/layer" tests/layer/main.rs -L target/staticlib -l static=exports
"$out/layer" "$@"
