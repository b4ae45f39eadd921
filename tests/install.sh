#!/usr/bin/env bash
# `make install` into a folder with a blank in its name, README's program through pkg-config and CMake from there, an example in C++
# through CMake, what has to be refused, and `make uninstall`. Needs target/staticlib/libexports.a, which is taken as it is.
set -euo pipefail
cd "$(dirname "${BASH_SOURCE[0]}")/.."
archive=target/staticlib/libexports.a
for tool in make pkg-config cmake gcc g++; do
    command -v "$tool" > /dev/null || { echo "install.sh: $tool is missing" >&2; exit 2; }
done
[ -f "$archive" ] || { echo "install.sh: $archive is missing: run 'tools/build exports' first" >&2; exit 2; }
out=$(mktemp -d)
trap 'rm -rf "$out"' EXIT
unset MAKEFLAGS DESTDIR PREFIX

fail() { echo "install.sh: $1" >&2; exit 1; }
quietly() { "$@" > "$out/said" 2>&1 || { cat "$out/said" >&2; fail "'$*' failed"; }; }
refused() { # WORDS COMMAND..: it fails, and says WORDS
    local words=$1
    shift
    if "$@" > "$out/said" 2>&1; then fail "'$*' was not refused"; fi
    tr -s ' \n' ' ' < "$out/said" | grep -qF "$words" || { cat "$out/said" >&2; fail "'$*' was refused, but not by '$words'"; }
}
files() { (cd "$1" && find . -type f | sort); }

# DESTDIR before PREFIX: what was installed is then used at another place than PREFIX.
places=(DESTDIR="$out/staged here" PREFIX="$out/the prefix")
root="$out/staged here$out/the prefix"
mkdir "$out/bin" "$out/project"

# where it has to refuse, nothing is installed: no archive, or another machine
printf '#!/bin/sh\necho no proof >&2\nexit 1\n' > "$out/bin/rt"
printf '#!/bin/sh\necho Linux aarch64\n' > "$out/bin/uname"
chmod +x "$out/bin/rt" "$out/bin/uname"
replaced() { PATH="$out/bin:$PATH" "$@"; }
refused "x86-64 Linux alone" replaced make install "${places[@]}"
rm "$out/bin/uname"
refused "no proof" replaced make archive="$out/none.a" install "${places[@]}"
refused "none.a is missing" make archive="$out/none.a" -o "$out/none.a" install "${places[@]}"
[ ! -e "$out/staged here" ] || fail "a refused install left files"

quietly make -o "$archive" install "${places[@]}"
[ ! -e "$out/the prefix" ] || fail "DESTDIR is not respected"
for file in include/*.h lib/libbirnenschloss.a lib/pkgconfig/birnenschloss.pc lib/cmake/Birnenschloss/BirnenschlossConfig{,Version}.cmake
do
    echo "./$file"
done | sort > "$out/expected"
diff "$out/expected" <(files "$root") >&2 || fail "other files are installed than expected"
cmp "$archive" "$root/lib/libbirnenschloss.a" || fail "another archive is installed"

# pkg-config writes a blank as the shell reads it, hence eval
version=$(sed -n 's/^version = "\(.*\)"$/\1/p' bindings/rust/Cargo.toml)
IFS=. read -r major minor patch <<< "$version"
older=$([ "$minor" -eq 0 ] || echo "$major.$((minor - 1))")
awk '/^```c$/ { on = 1; next } /^```$/ { on = 0 } on' README.md > "$out/project/readme.c"
cp examples/osek.c "$out/project/osek.cpp"
export PKG_CONFIG_PATH="$root/lib/pkgconfig"
[ "$(pkg-config --modversion birnenschloss)" = "$version" ] || fail "pkg-config gives another version than $version"
flags=$(pkg-config --cflags --libs birnenschloss)
eval "gcc -std=c99 '$out/project/readme.c' $flags -o '$out/readme'" || fail "README's program does not build through pkg-config"
[ "$("$out/readme")" = "00 80 57 01" ] || fail "README's program prints something else through pkg-config"

cat > "$out/project/CMakeLists.txt" << END
cmake_minimum_required(VERSION 3.10)
project(van C CXX)
find_package(Birnenschloss REQUIRED)
find_package(Birnenschloss $major.$minor REQUIRED)
find_package(Birnenschloss $version EXACT REQUIRED)
add_executable(readme readme.c)
add_executable(osek osek.cpp)
foreach(program readme osek)
    target_link_libraries(\${program} PRIVATE Birnenschloss::birnenschloss)
endforeach()
END
quietly cmake -S "$out/project" -B "$out/built" -DCMAKE_PREFIX_PATH="$root"
quietly cmake --build "$out/built"
[ "$("$out/built/readme")" = "00 80 57 01" ] || fail "README's program prints something else through CMake"
"$out/built/osek" > "$out/stdout" || fail "examples/osek.c ended with $?, in C++ through CMake"
diff examples/osek.stdout "$out/stdout" >&2 || fail "examples/osek.c printed otherwise, in C++ through CMake"

# what the CMake package refuses: another system, processor, size of pointers, version
package() { # SYSTEM PROCESSOR POINTER VERSION
    echo "find_package(Birnenschloss $4 REQUIRED)" > "$out/find.cmake"
    cmake -DCMAKE_PREFIX_PATH="$root" -DCMAKE_SYSTEM_NAME="$1" -DCMAKE_SYSTEM_PROCESSOR="$2" -DCMAKE_SIZEOF_VOID_P="$3" -P "$out/find.cmake"
}
refused "x86-64 Linux alone, and this is Darwin x86_64" package Darwin x86_64 8 ""
refused "x86-64 Linux alone, and this is Linux aarch64" package Linux aarch64 8 ""
refused "pointers of 4 bytes" package Linux x86_64 4 ""
for wanted in "$major.$((minor + 1))" "$major.$minor.$((patch + 1))" "$((major + 1)).$minor" ${older:+"$older"}; do
    refused "compatible with requested version \"$wanted\"" package Linux x86_64 8 "$wanted"
done

# just those files go
echo kept > "$root/include/other.h"
quietly make uninstall "${places[@]}"
[ "$(files "$root")" = "./include/other.h" ] || fail "after make uninstall these files are there: $(files "$root" | tr '\n' ' ')"
[ ! -e "$root/lib/cmake/Birnenschloss" ] || fail "make uninstall leaves the folder lib/cmake/Birnenschloss"
refused "libbirnenschloss.a" make uninstall "${places[@]}"
echo "install.sh: $(wc -l < "$out/expected") files installed and removed; README's program runs through pkg-config and CMake, an example in C++"
