/* SN texts of very many items, digits and spaces: none decides how deep the stack goes. c/run.sh runs it under a stack of 256 KB. */
#include "puvolamie.h"

#include <stdio.h>
#include <stdlib.h>
#include <string.h>

static size_t failures;

/* So many words in turn from `words`, parted by `between`. The length of the text. */
static size_t repeat(char *text, const char *const *words, size_t kinds, const char *between, size_t times)
{
    char *at = text;
    for (size_t i = 0; i < times; i++) {
        const char *part = i == 0 ? "" : between;
        memcpy(at, part, strlen(part));
        at += strlen(part);
        memcpy(at, words[i % kinds], strlen(words[i % kinds]));
        at += strlen(words[i % kinds]);
    }
    return (size_t)(at - text);
}

/* The text with a slice as long as itself, and, where it is accepted, with one that is a byte too short. */
static void check(const char *what, const char *text, size_t length, uint32_t number, size_t due)
{
    uint8_t *out = calloc(length, 1);
    pv_written r = pv_sn_to_standard((const uint8_t *)text, length, out, length);
    bool right = r.refused == number && r.length == due && out[due] == 0;
    if (number == PV_ACCEPTED) {
        memset(out, 0, length);
        pv_written s = pv_sn_to_standard((const uint8_t *)text, length, out, due - 1);
        right = right && s.refused == PV_TEXT_TOO_SHORT && s.length == 0 && out[0] == 0;
    }
    free(out);
    printf("%s, %zu bytes: %u, %zu bytes%s\n", what, length, (unsigned)r.refused, r.length, right ? "" : ", WRONG");
    failures += !right;
}

int main(void)
{
    static const char *const marked[] = {"~1~"};
    static const char *const mixed[] = {"1", "~1~"};
    static const char *const nine[] = {"9"};
    static const char *const space[] = {" "};
    char *text = malloc(16000000);
    check("524,288 runs of one class", text, repeat(text, marked, 1, " ", 524288), PV_ACCEPTED, 2 * 524288 - 1);
    check("524,289 runs of one class", text, repeat(text, marked, 1, " ", 524289), PV_BAD_SN_TEXT, 0);
    check("349,526 runs and breaks", text, repeat(text, marked, 1, " (2) ", 349526), PV_ACCEPTED, 6 * 349526 - 5);
    check("1,048,576 runs of two classes", text, repeat(text, mixed, 2, " ", 1048576), PV_UNDECIDED, 0);
    check("1,048,577 runs of two classes", text, repeat(text, mixed, 2, " ", 1048577), PV_BAD_SN_TEXT, 0);
    check("2,000,001 runs", text, repeat(text, mixed, 1, " ", 2000001), PV_BAD_SN_TEXT, 0);
    check("5,000,000 digits", text, repeat(text, nine, 1, "", 5000000), PV_BAD_SN_TEXT, 0);
    check("4,000,000 digits", text, repeat(text, nine, 1, "", 4000000), PV_BAD_SN_TEXT, 0);
    check("1,000,000 spaces", text, repeat(text, space, 1, "", 1000000), PV_BAD_SN_TEXT, 0);
    free(text);
    return failures != 0;
}
