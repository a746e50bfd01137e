#!/bin/sh
# build.sh: proves and builds the bench program, the desk, the preview, the program of the host end and the static
# libraries, then builds the reference's programs that are run and what compares both. Says nothing unless something
# fails.
set -eu
cd "$(dirname "$0")/.."
bash ci/build.sh bench desk preview vectors firmware replay trial
release="--release --offline --quiet"
cargo build $release --manifest-path reference/Cargo.toml --bin bench_reference --bin preview_reference || exit 2
cargo build $release --manifest-path compare/Cargo.toml || exit 2
