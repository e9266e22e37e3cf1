#!/bin/sh
# program.sh NAME: builds c/NAME.c over the static library to target/c/NAME, unless it is newer than both. The library is proved and built first.
set -e
cd "$(dirname "$0")/.."
library=target/staticlib/libpuvolamie_c.a
[ -e $library ] || echo "$1: proving and building the library, once; this takes some minutes" >&2
c/library.sh </dev/null >&2
if [ ! -e "target/c/$1" ] || [ -n "$(find $library c -newer "target/c/$1" | head -n 1)" ]; then
    mkdir -p target/c
    cc -std=c99 -O1 -Wall -Wextra -Werror -o "target/c/$1" "c/$1.c" $library
fi
