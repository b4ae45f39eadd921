#!/usr/bin/env bash
# The Rust bindings: their tests and documentation, with no warning, what the firmware example prints, and that a forgotten start
# does not compile. Needs target/staticlib/libexports.a and cargo, no network.
set -euo pipefail
cd "$(dirname "${BASH_SOURCE[0]}")/.."
out=$(mktemp -d)
trap 'rm -rf "$out"' EXIT
export CARGO_TARGET_DIR=$out/target BIRNENSCHLOSS_LIB=$PWD/target/staticlib RUSTFLAGS='-D warnings' RUSTDOCFLAGS='-D warnings'
command -v cargo > /dev/null || { echo "rust: cargo is missing: the tests of the bindings need it, with no crate" >&2; exit 2; }

quietly() { "$@" > "$out/said" 2>&1 || { cat "$out/said"; echo "rust: '$*' failed" >&2; exit 1; }; }
cd bindings/rust
quietly cargo doc --offline --locked
quietly cargo test --offline --locked
tests=$(awk '/^test result: ok/ { n += $4 } END { print n + 0 }' "$out/said")
[ "$tests" -gt 0 ] || { echo "rust: no test ran" >&2; exit 1; }
cargo run --offline --locked --quiet --example firmware > "$out/stdout"
diff examples/firmware.stdout "$out/stdout" || { echo "rust: the firmware example prints something else" >&2; exit 1; }
quietly cargo build --offline --locked
compile() { # NAME: the library NAME.rs over the bindings
    rustc --edition 2021 -D warnings --crate-type lib --emit metadata -o "$out/$1.rmeta" "$out/$1.rs" \
        -L "$CARGO_TARGET_DIR/debug/deps" --extern birnenschloss="$CARGO_TARGET_DIR/debug/libbirnenschloss.rlib"
}
# the function that README shows
awk '/^```rust$/ { on = 1; next } /^```$/ { on = 0 } on' ../../README.md > "$out/readme.rs"
quietly compile readme
# a function that sends, with the start and without: the one error then names send
sending() { # START
    echo 'use birnenschloss::{Controller, Error, ObjectNumber, Requests, Table};'
    echo 'pub fn sent(table: Table) -> Result<Requests, Error> {'
    echo "    let mut controller = Controller::new(table)$1;"
    echo '    controller.send(ObjectNumber(0), 2748)'
    echo '}'
}
sending '.start()' > "$out/started.rs"
sending '' > "$out/forgotten.rs"
quietly compile started
if compile forgotten > "$out/said" 2>&1; then echo "rust: a forgotten start compiles" >&2; exit 1; fi
[ "$(grep '^error\[' "$out/said" | cut -d ' ' -f 1-5)" = 'error[E0599]: no method named `send`' ] ||
    { cat "$out/said"; echo "rust: a forgotten start is refused for another reason" >&2; exit 1; }
echo "rust: $tests tests of the bindings pass, a forgotten start does not compile, and the firmware example prints its $(wc -l < "$out/stdout") lines"
