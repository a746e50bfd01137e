#!/usr/bin/env bash
# Proves and builds programs and C libraries: ci/build.sh [NAME ..], by default all of bench, desk, preview, vectors,
# firmware, trial and replay. A program, which `rt run` proves and builds, goes to target/bin/NAME; a C library, which
# `rt lib` proves and builds of the crate NAME_c, or of NAME where there is none, to target/staticlib/libNAME.a.
# Says nothing unless something fails, and then ends with 2.
set -eu
cd "$(dirname "$0")/.."
mkdir -p target/bin target/staticlib
said=$(mktemp)
trap 'rm -f "$said"' EXIT
# Runs a command in a crate's folder.
at() {
    (cd "crates/$1" && shift && "$@") < /dev/null > "$said" 2>&1 || { cat "$said"; exit 2; }
}
[ $# -gt 0 ] || set -- bench desk preview vectors firmware trial replay
for name in "$@"; do
    crate=$name
    if [ -f "crates/$name/src/main.rt" ]; then
        at "$crate" rt run
        cp "crates/$crate/out/$crate" "target/bin/$name"
    else
        [ -d "crates/${name}_c" ] && crate=${name}_c
        at "$crate" rt lib
        cp "crates/$crate/out/lib$crate.a" "target/staticlib/lib$name.a"
    fi
done
