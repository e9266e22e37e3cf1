/* sn_to_standard: for each line of standard input, an SN detailed text, the standard detailed text or "refused N" on a line. */
#define _POSIX_C_SOURCE 200809L
#include "puvolamie.h"

#include <stdio.h>
#include <stdlib.h>

/* What the empty text becomes has 11 bytes; no other standard text is longer than its SN text. */
enum { LEAST = 11 };

static int fail(const char *why)
{
    fprintf(stderr, "sn_to_standard: %s\n", why);
    return 2;
}

static void print_text(const uint8_t *sn, size_t length, uint8_t *standard, size_t room)
{
    pv_written r = pv_sn_to_standard(sn, length, standard, room);
    if (r.refused == PV_ACCEPTED)
        fwrite(standard, 1, r.length, stdout);
    else
        printf("refused %u", (unsigned)r.refused);
    putchar('\n');
}

int main(void)
{
    char *line = NULL;
    size_t line_room = 0;
    uint8_t *standard = NULL;
    size_t room = 0;
    ssize_t length;
    while ((length = getline(&line, &line_room, stdin)) >= 0) {
        if (line_room + LEAST > room) {
            room = line_room + LEAST;
            free(standard);
            standard = malloc(room);
            if (standard == NULL)
                return fail("a line does not fit the memory");
        }
        /* The last line may lack its end. */
        if (length > 0 && line[length - 1] == '\n')
            length--;
        print_text((const uint8_t *)line, (size_t)length, standard, room);
    }
    free(standard);
    free(line);
    if (ferror(stdin) || !feof(stdin))
        return fail("cannot read the texts");
    return fflush(stdout) == 0 && !ferror(stdout) ? 0 : fail("cannot write the texts");
}
