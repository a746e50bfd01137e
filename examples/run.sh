#!/bin/sh
# run.sh: proves and builds the firmware library, builds the session in C and in Rust over it, runs both, and holds what
# they print to what paper 01 prints, the bench program's stored session, and after it the entry of its move: 207 ticks,
# complete, a pulse of axis 0 and one back of axis 1.
set -eu
cd "$(dirname "$0")/.."
bash ci/build.sh firmware
mkdir -p target/examples
{ cat crates/bench/stdout; echo "journal: 207 0 1 -1 0 0 0"; } > target/examples/expected
gcc -std=c99 -Wall -Wextra -Werror -O2 -I include examples/session.c target/staticlib/libfirmware.a \
    -o target/examples/session_c
rustc --edition 2021 -D warnings -O -L target/staticlib -l static=firmware examples/session.rs \
    -o target/examples/session_rust
for program in session_c session_rust; do
    target/examples/$program > target/examples/$program.out
    if ! cmp target/examples/$program.out target/examples/expected; then
        echo "examples: $program prints something else than paper 01 and the entry of its move"
        exit 1
    fi
done
echo "examples: C and Rust print the session of paper 01 and the entry of its move"
