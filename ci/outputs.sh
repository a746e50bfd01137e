#!/usr/bin/env bash
# Stored outputs against the reference's programs: ci/outputs.sh compares, ci/outputs.sh make writes them anew. Each
# NAME.in has its NAME.out beside it; crates/bench, crates/desk and crates/preview have stdin and stdout;
# docs/recipe.out and docs/station.out are what the words of docs/recipe.txt, and the words and station lines of
# docs/station.txt, come to by way of the bench program, docs/trial.out what the words of docs/trial.txt show on screen;
# the program vectors prints the answers to all files that its args name.
set -eu
cd "$(dirname "$0")/.."
cargo build --release --offline --quiet --manifest-path reference/Cargo.toml
# The reference's program for what a file holds: a session, lists, vectors or words, or a session for the screen.
printer() {
    case "$1" in
        session) echo reference/target/release/bench_reference ;;
        lists) echo reference/target/release/lists_reference ;;
        vectors) echo reference/target/release/host_reference ;;
        words) echo reference/target/release/desk_reference ;;
        screen) echo reference/target/release/preview_reference ;;
    esac
}
# What the program vectors must print: of each file its name and its answers.
all_answers() {
    while read -r what && read -r name; do
        echo "# $name"
        "$(printer "$what")" < "crates/vectors/data/$name"
    done < crates/vectors/args
}
# What belongs in a stored output.
printed() {
    case "$1" in
        crates/vectors/stdout) all_answers ;;
        crates/bench/stdout) "$(printer session)" < crates/bench/stdin ;;
        crates/desk/stdout) "$(printer words)" < crates/desk/stdin ;;
        crates/preview/stdout) "$(printer screen)" < crates/preview/stdin ;;
        docs/recipe.out | docs/station.out)
            "$(printer words)" < "${1%.out}.txt" | "$(printer session)" | "$(printer words)" ;;
        docs/trial.out) "$(printer words)" < docs/trial.txt | "$(printer screen)" ;;
        *) "$(printer session)" < "${1%.out}.in" ;;
    esac
}
for output in docs/*.out reference/data/*.out crates/*/stdout; do
    if [ "${1:-}" = make ]; then
        printed "$output" > "$output"
    elif ! printed "$output" | cmp -s - "$output"; then
        echo "outputs: $output is not what the reference prints"
        exit 1
    fi
done
echo "outputs: all stored outputs are those of the reference"
