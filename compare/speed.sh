#!/bin/sh
# speed.sh: proves and builds what is timed, then prints four tables: ticks, lines and characters; both bench programs
# on whole inputs; the dearest single calls; trials. Ends with 1 where a trial takes too long.
set -eu
cd "$(dirname "$0")/.."
sh compare/build.sh
exec compare/target/release/speed
