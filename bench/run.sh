#!/bin/sh
# Times the pass and the number writer beside the unchanged Rust, numbers at a width beside the standard library's, and the reader of note rows and
# the converter of SN texts beside plain ones; a word picks the charts whose name has it, the numbers ("numbers"), the note rows ("rows") or the SN
# texts ("sn"). With --before and a commit, the library of that commit takes its turns too.
set -e
cd "$(dirname "$0")"
if [ "$1" = --before ]; then
    BEFORE=$(./before.sh "$2")
    export BEFORE
    shift 2
fi
../c/library.sh
exec cargo run --release --offline --quiet -- "$@"
