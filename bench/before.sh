#!/bin/sh
# Builds the library of an earlier commit, its calls named before_pv_.. in place of pv_.., and prints that commit's number.
set -e
cd "$(dirname "$0")/.."
commit=$(git rev-parse --verify --short=12 "$1^{commit}")
made=target/before/$commit
if [ ! -e "$made/libbefore.a" ]; then
    [ -e "$made/tree" ] || git clone -q --no-checkout . "$made/tree"
    git -C "$made/tree" checkout -q "$commit"
    "$made/tree/c/library.sh" >&2
    library=$made/tree/target/staticlib/libpuvolamie_c.a
    nm -g --defined-only "$library" | awk '$3 ~ /^pv_/ { print $3, "before_" $3 }' > "$made/calls"
    objcopy --redefine-syms="$made/calls" "$library" "$made/libbefore.a"
fi
echo "$commit"
