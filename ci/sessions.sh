#!/usr/bin/env bash
# Every stored session on the bench program, at once and in pieces of 7 bytes, against its stored output; then the bench
# program and the desk line by line (ci/interactive.py), a recipe through both and trials through the preview
# (ci/recipe.sh): ci/sessions.sh [proved]
# It runs the programs of target/bin, which `ci/build.sh bench desk preview` proves and builds; with the word proved it
# first puts there those that `rt ci` has just proved and built.
set -eu
cd "$(dirname "$0")/.."
if [ "${1:-}" = proved ]; then
    mkdir -p target/bin
    for program in bench desk preview; do
        cp "crates/$program/out/$program" target/bin
    done
fi
# The replies that are stored for a session.
replies() {
    case "$1" in
        crates/bench/stdin) cat crates/bench/stdout ;;
        crates/vectors/*) python3 ci/stored.py "$(basename "$1")" ;;
        *) cat "${1%.in}.out" ;;
    esac
}
sessions=$(sed -n '/^session$/{n;s,^,crates/vectors/data/,p}' crates/vectors/args)
for input in docs/*.in crates/bench/stdin $sessions; do
    if ! target/bin/bench < "$input" | cmp -s - <(replies "$input"); then
        echo "sessions: $input: the bench program prints something else than is stored"
        exit 1
    fi
    if ! dd if="$input" bs=7 2> /dev/null | target/bin/bench | cmp -s - <(replies "$input"); then
        echo "sessions: $input in pieces: the bench program prints something else than is stored"
        exit 1
    fi
done
echo "sessions: the bench program prints every stored output"
python3 ci/interactive.py
bash ci/recipe.sh
