/* rows_to_record NAME: makes a chart record with that name of the note rows on standard input. */
#include "puvolamie.h"

#include <stdio.h>
#include <stdlib.h>
#include <string.h>

/* The most bytes that a field of a record has. */
enum { FIELD = 65535 };

static int fail(const char *why)
{
    fprintf(stderr, "rows_to_record: %s\n", why);
    return 2;
}

static const char *question(uint32_t number)
{
    switch (number) {
    case PV_TOO_MANY_MEASURES:
        return "at most 1,048,576 measures?";
    case PV_BAD_LINE:
        return "a row, \",\" or \";\", each ended by 0A?";
    case PV_TOO_MANY_ROWS:
        return "at most 192 rows in a measure?";
    case PV_BAD_END:
        return "the line \";\", and nothing after it?";
    default:
        return "unknown question";
    }
}

/* All of standard input; NULL where it cannot be read or does not fit the memory. */
static uint8_t *read_all(size_t *length)
{
    uint8_t *text = NULL;
    size_t room = 0;
    *length = 0;
    while (*length == room) {
        room = 2 * room + 65536;
        uint8_t *longer = realloc(text, room);
        if (longer == NULL)
            break;
        text = longer;
        *length += fread(text + *length, 1, room - *length, stdin);
    }
    if (*length < room && !ferror(stdin))
        return text;
    free(text);
    return NULL;
}

static void write_field(int tag, const void *payload, size_t length)
{
    putchar(tag);
    putchar((int)(length / 256));
    putchar((int)(length % 256));
    fwrite(payload, 1, length, stdout);
}

/* A density, at most 192, is a byte. */
static void write_record(const char *name, const uint32_t *densities, size_t measures)
{
    static uint8_t payload[FIELD];
    write_field(1, name, strlen(name));
    for (size_t at = 0; at < measures;) {
        size_t count = 0;
        while (count < FIELD && at < measures)
            payload[count++] = (uint8_t)densities[at++];
        write_field(2, payload, count);
    }
}

int main(int count, char **words)
{
    static uint32_t densities[PV_MOST_MEASURES];
    if (count != 2)
        return fail("usage: rows_to_record NAME < ROWS > RECORD");
    if (strlen(words[1]) > FIELD)
        return fail("the name is too long for a field");
    size_t length;
    uint8_t *text = read_all(&length);
    if (text == NULL)
        return fail("cannot read the note rows");
    pv_rows_answer r = pv_read_note_rows(text, length, densities, PV_MOST_MEASURES);
    free(text);
    if (r.refused != PV_ACCEPTED) {
        fprintf(stderr, "rows_to_record: refused %u: %s\n", (unsigned)r.refused, question(r.refused));
        return 1;
    }
    write_record(words[1], densities, r.measures);
    return fflush(stdout) == 0 && !ferror(stdout) ? 0 : fail("cannot write the record");
}
