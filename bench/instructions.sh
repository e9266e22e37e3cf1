#!/bin/sh
# Instructions a measure by function, counted by valgrind over 100 calls: the load of A.14 and alternating classes of 1,024 measures, a typical
# chart of 300; with roomy slices, and with tight ones (of whose calls the first is roomy).
set -e
cd "$(dirname "$0")"
../c/library.sh
made=../target/instructions
mkdir -p $made
cc -O2 -Wall -Wextra -no-pie -o $made/pass instructions.c ../target/staticlib/libpuvolamie_c.a
for chart in load alternating typical; do
    measures=1024
    [ $chart != typical ] || measures=300
    for slices in roomy tight; do
        echo "$chart, $slices:"
        valgrind --tool=callgrind --callgrind-out-file=$made/counted $made/pass $chart $slices 100 2>/dev/null
        callgrind_annotate --threshold=99.9 $made/counted |
            awk -v calls=$((100 * measures)) '/::/ { n = $1; gsub(",", "", n); sub(/.*\?\?\?:/, ""); printf "%8.1f  %s\n", n / calls, $1 }'
    done
done
