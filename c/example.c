/* Prints the six texts of a chart. */
#include "puvolamie.h"

#include <stdio.h>

int main(void)
{
    const uint32_t chart[] = {16, 16, 0, 20, 20, 0, 0, 0, 16};
    enum { MEASURES = sizeof chart / sizeof chart[0] };
    uint8_t classes[MEASURES];
    uint32_t lengths[MEASURES];
    uint8_t text[17 * MEASURES + 33];

    pv_outputs answer =
        pv_compute_stream_outputs(chart, MEASURES, classes, MEASURES, lengths, MEASURES, text, sizeof text);
    if (answer.refused != PV_ACCEPTED) {
        printf("refused %u\n", (unsigned)answer.refused);
        return 1;
    }
    const uint8_t *at = text;
    for (int i = 0; i < 6; i++) {
        printf("%.*s\n", (int)answer.lengths[i], (const char *)at);
        at += answer.lengths[i];
    }
    return 0;
}
