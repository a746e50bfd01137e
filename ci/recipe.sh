#!/usr/bin/env bash
# The stored recipe and station lines from words to words, desk | bench | desk, and the stored trials, desk | preview:
# ci/recipe.sh [FOLDER of the programs, target/bin]
# What is printed must be docs/recipe.out, docs/station.out and docs/trial.out, which the reference's programs made.
set -eu
cd "$(dirname "$0")/.."
programs=${1:-target/bin}
for name in recipe station; do
    "$programs/desk" < "docs/$name.txt" | "$programs/bench" | "$programs/desk" | cmp - "docs/$name.out"
done
"$programs/desk" < docs/trial.txt | "$programs/preview" | cmp - docs/trial.out
echo "recipe: $(wc -l < docs/recipe.txt) lines from words to words, $(wc -l < docs/station.txt) with station lines," \
    "$(wc -l < docs/trial.txt) with trials, as stored"
