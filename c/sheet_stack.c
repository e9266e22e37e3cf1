/* The sheets of three records of 16,384 bytes, with the answer as a local variable: c/run.sh runs it under a stack of 384 KB. */
#include "puvolamie.h"

#include <stdio.h>
#include <string.h>

enum { MOST_BYTES = 16384, HEADS = 7 };

/* The record "A" of runs of class 1 and gaps in turn, so many measures in each; what its sheet begins with. */
static int check(size_t run, size_t gap, const char *begins)
{
    static uint8_t record[MOST_BYTES] = {1, 0, 1, 'A', 2, (MOST_BYTES - HEADS) / 256, (MOST_BYTES - HEADS) % 256};
    for (size_t i = 0; i < MOST_BYTES - HEADS; i++)
        record[HEADS + i] = i % (run + gap) < run ? 16 : 0;
    pv_sheet sheet = pv_print_sheet(record, sizeof record);
    bool right = memcmp(sheet.bytes, begins, strlen(begins)) == 0;
    printf("runs of %zu, gaps of %zu: a sheet of %zu bytes%s\n", run, gap, sheet.length, right ? "" : ", WRONG");
    return !right;
}

int main(void)
{
    int failures = check(1, 1, "A\n8189 0 0 0 0 8188 0 0\n1 1 1 ");
    failures += check(100, 100, "A\n8200 0 0 0 8177 8100 0 77\n100 (100) 100 ");
    failures += check(MOST_BYTES, 0, "A\n16377 0 0 0 0 0 0 0\n16377\n");
    return failures != 0;
}
