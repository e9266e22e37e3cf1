#!/bin/sh
# Builds the static library, compiles the header as C and C++, and runs the example, the tests, large SN texts under a stack of
# 256 KB, sheets under one of 384 KB, and the tools: rows_to_record on note rows that are accepted and on some that are refused,
# sn_to_standard on both kinds, make_record on items that it takes and on others.
set -e
cd "$(dirname "$0")/.."
c/library.sh
mkdir -p target/c
library=target/staticlib/libpuvolamie_c.a
c++ -Wall -Wextra -Werror -fsyntax-only -x c++ c/puvolamie.h
for program in example test large_sn_texts sheet_stack; do
    cc -std=c99 -O1 -Wall -Wextra -Werror -o target/c/$program c/$program.c $library
done
target/c/example
target/c/test
(ulimit -s 256 && target/c/large_sn_texts)
(ulimit -s 384 && target/c/sheet_stack)

tools/rows_to_record A samples/case12.rows | cmp - samples/case12.record
status=0
printf '1000\n' | tools/rows_to_record A - > target/c/refused.record 2> target/c/refused.said || status=$?
[ $status -eq 1 ] || { echo "rows_to_record: status $status of a refusal"; exit 1; }
cmp /dev/null target/c/refused.record
echo 'rows_to_record: refused 16: the line ";", and nothing after it?' | cmp - target/c/refused.said
echo "rows_to_record: the record of case 12, and a refusal"

printf '1 1\n\n2 ~2~ (3) 1\n01\n~8~ (4) \\16\\' | tools/sn_to_standard - > target/c/standard_texts
printf '1-1\nNo Streams!\nrefused 19\nrefused 18\n8 (4) 16\n' | cmp - target/c/standard_texts
echo "sn_to_standard: five lines, two of them refused"

# made RECORD WORD..: make_record writes this record, given in octal.
made() {
    record=$1
    shift
    printf "$record" > target/c/due.record
    tools/make_record "$@" | cmp - target/c/due.record
}
made '\001\000\001A' A
made '\001\000\002\303\251\002\000\003\020\020\020\002\000\001\000\002\000\002\377\377' é 16x3 0 255x2
made '\001\000\000\002\000\000\002\000\001\011' '' 16x0 9
tools/make_record A 7x65535 | wc -c | grep -qx 65542
long=$(printf '%65536s' A)
not_made() {
    status=0
    tools/make_record "$@" > target/c/not_made.record 2> target/c/not_made.said || status=$?
    [ $status -eq 2 ] && [ ! -s target/c/not_made.record ] && [ "$(wc -l < target/c/not_made.said)" -eq 1 ] ||
        { echo "make_record: status $status of a bad item"; cat target/c/not_made.said; exit 1; }
}
not_made
not_made "$long" 16
for item in '' x5 5x 5x5x5 256 1x65536 -1 +1 1.5 5X5 ' 5' 08 00 5x01 '\n' '*' "$(printf '5\n6')" \
    99999999999999999999 5x99999999999999999999 18446744073709551621 "$long"; do
    not_made A 16 "$item"
done
echo "make_record: four records, and 23 that it does not make"
