#!/bin/sh
# Builds the driver and makes every chart list and every answer anew.
set -eu

judge=$(cd "$(dirname "$0")" && pwd)
crates=$judge/../crates
run=$judge/target/release/judge

cargo build --release --offline \
    --manifest-path "$judge/Cargo.toml" --target-dir "$judge/target"

for name in numbers measures texts runs; do
    mkdir -p "$crates/replay_$name"
done

"$run" numbers > "$crates/replay_numbers/stdout"
"$run" runs > "$crates/replay_runs/stdout"

for name in measures texts; do
    place=$crates/replay_$name
    "$run" charts "$name" > "$place/stdin"
    "$run" "$name" < "$place/stdin" > "$place/stdout"
done
