#!/usr/bin/env bash
# Proves the layer and the program `drive`, a line for each crate, and plays the van's journey, each call beside its answer. Where a proof
# fails, what was said last is shown, and nothing is played; where the journey is another than van.stdout, that is said.
set -euo pipefail
cd "$(dirname "${BASH_SOURCE[0]}")/.."
command -v rt > /dev/null || { echo "van.sh: rt is missing: install the Rattle kit and put its command rt on the PATH" >&2; exit 2; }
mkdir -p target
said=target/van.log
echo "The layer and drive are proved first: some minutes the first time, a second later on. All that is said goes to $said."
if ! tools/build drive 2>&1 | tee "$said" | { grep --line-buffered '^build: .* proved' || true; }; then
    tail -n 40 "$said" >&2
    echo "van.sh: tools/build drive failed; the whole of what it said is in $said" >&2
    exit 1
fi
echo "target/bin/drive examples/van.table examples/van.script, each call beside its answer:"
target/bin/drive examples/van.table examples/van.script > target/van.stdout
paste examples/van.script target/van.stdout
cmp examples/van.stdout target/van.stdout || { echo "van.sh: this is another journey than examples/van.stdout" >&2; exit 1; }
