#!/bin/sh
# Builds the static library and the crate, runs its tests, and compares it with the original, and what the original lacks with plain rules.
# rust/run.sh [--quick] [SEED]: words are handed to the comparison.
set -e
cd "$(dirname "$0")"
../c/library.sh
cargo test --offline --quiet
cargo run --offline --quiet --release -p compare -- "$@"
