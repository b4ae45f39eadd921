#!/usr/bin/env bash
# README's program; the C headers, as C99 and as C++: each alone, the examples with their output, and the tests of tests/c. Needs
# target/staticlib/libexports.a, gcc and g++.
set -euo pipefail
cd "$(dirname "${BASH_SOURCE[0]}")/.."
archive=target/staticlib/libexports.a
for compiler in gcc g++; do
    command -v "$compiler" > /dev/null || { echo "c.sh: $compiler is missing" >&2; exit 2; }
done
[ -f "$archive" ] || { echo "c.sh: $archive is missing: run 'tools/build exports' first" >&2; exit 2; }
out=$(mktemp -d)
trap 'rm -rf "$out"' EXIT

c99() { gcc -std=c99 -Wall -Wextra -Wpedantic -Werror -Iinclude -x c "$@"; }
cxx() { g++ -Wall -Wextra -Werror -Iinclude -x c++ "$@"; }

# the program that README shows
awk '/^```c$/ { on = 1; next } /^```$/ { on = 0 } on' README.md > "$out/readme.c"
c99 "$out/readme.c" -x none "$archive" -o "$out/readme"
[ "$("$out/readme")" = "00 80 57 01" ] || { echo "c.sh: README's program prints something else" >&2; exit 1; }

for language in c99 cxx; do
    for header in include/*.h; do
        "$language" -fsyntax-only -include "$header" - < /dev/null || { echo "c.sh: $header alone, $language" >&2; exit 1; }
    done
    for example in examples/*.c; do
        name=$(basename "$example" .c)
        "$language" "$example" -x none "$archive" -o "$out/$name"
        "$out/$name" > "$out/stdout" || { echo "c.sh: $example ended with $?, $language" >&2; exit 1; }
        diff "examples/$name.stdout" "$out/stdout" || { echo "c.sh: $example printed otherwise, $language" >&2; exit 1; }
    done
    said=
    for test in boundary groups sheets sheets_refused counts places signed signed_filters osek; do
        sources=(tests/c/$test.c)
        [ $test = osek ] && sources+=(tests/c/controller.c)
        "$language" "${sources[@]}" -x none "$archive" -o "$out/$test"
        told=$("$out/$test") || { echo "$told" "($language)" >&2; exit 1; }
        said="$said; $told"
    done
done
echo "c.sh: headers and examples as they should be in C99 and C++$said"
