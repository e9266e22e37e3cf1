#!/bin/sh
# Proves and builds the static library, unless it is newer than every file that it is made of, as target/staticlib/libpuvolamie_c.a.
set -e
cd "$(dirname "$0")/.."
library=target/staticlib/libpuvolamie_c.a
if [ ! -e $library ] || [ -n "$(find crates crates.txt -name out -prune -o -type f -newer $library -print | head -n 1)" ]; then
    command -v rt > /dev/null || { echo "$library is missing or older than crates/, and \`rt\` is not on the path: put it there"; exit 1; }
    mkdir -p target/staticlib
    (cd crates/puvolamie_c && rt lib) > target/staticlib.log 2>&1 || { cat target/staticlib.log; exit 1; }
    cp crates/puvolamie_c/out/libpuvolamie_c.a $library
fi
