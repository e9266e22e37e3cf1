#!/bin/sh
# Names the functions of the compiled library that differ from those of an earlier commit in some instruction.
set -e
cd "$(dirname "$0")/.."
commit=$(bench/before.sh "$1")
c/library.sh
library=target/staticlib/libpuvolamie_c.a
made=target/changed_functions
mkdir -p $made

# A line for each function: its name and its instructions, without their addresses and without the numbers of the compiler's own labels.
functions() {
    objdump -dr --no-show-raw-insn "$1" | awk '
        / <.*>:$/ { if (name) print name code; name = $2; code = ""; next }
        /^[ \t]+[0-9a-f]+:/ { sub(/^[ \t]*[0-9a-f]+:[ \t]*/, ""); sub(/LCPI[0-9]+/, "LCPI"); sub(/\.[0-9]+-0x/, "-0x"); code = code "; " $0 }
        END { print name code }' | sort
}

functions "target/before/$commit/tree/$library" > $made/before
functions $library > $made/after
echo "$(comm -12 $made/before $made/after | wc -l) functions are the same; those that differ:"
comm -13 $made/before $made/after | sed 's/^<\(.*\)>:.*/\1/'
