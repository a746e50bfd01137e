#!/bin/sh
# run.sh [--sessions N] [--ticks N] [--vectors N] [--words N] [--previews N] [SEED ...]: proves and builds what is
# compared, then runs random sessions through both bench programs, random call lists with trials through both machines,
# random lines through both host ends and through both desks, and random sessions with D lines through both previews.
# Ends with 1 at a difference.
set -eu
cd "$(dirname "$0")/.."
sh compare/build.sh
exec compare/target/release/compare "$@"
