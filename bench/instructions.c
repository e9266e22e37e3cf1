/* The pass on one chart, many times: for counting instructions. Charts: load, alternating (1,024 measures), typical (300); roomy or tight. */
#include "../c/puvolamie.h"
#include <stdio.h>
#include <stdlib.h>

static uint32_t m[1024], lengths[1024], x;
static uint8_t classes[1024], out[17 * 1024 + 33];
static const uint32_t least[4] = {16, 20, 24, 32};

static uint32_t next(void)
{
    x = x * 1664525u + 1013904223u;
    return x >> 24;
}

/* The bench's typical chart: runs of 1 to 46 measures of one class, gaps of 1 to 8. */
static size_t typical(void)
{
    size_t n = 0;
    x = 7;
    while (n < 300) {
        uint32_t d = least[next() % 4];
        for (uint32_t k = 1 + next() % 46; k > 0; k--, n += n < 300)
            m[n] = d + next() % 4;
        for (uint32_t k = 1 + next() % 8; k > 0; k--, n += n < 300)
            m[n] = next() % 16;
    }
    return n;
}

static size_t other(int alternating)
{
    x = 1;
    for (size_t i = 0; i < 1024; i++) {
        uint32_t d = next() % 40;
        m[i] = alternating ? least[i % 4] : d;
    }
    return 1024;
}

int main(int count, char **words)
{
    if (count < 4)
        return 1;
    size_t n = words[1][0] == 't' ? typical() : other(words[1][0] == 'a');
    size_t places = n, room = 17 * n + 33;
    pv_outputs r = pv_compute_stream_outputs(m, n, classes, places, lengths, places, out, room);
    if (words[2][0] == 't') {
        places = r.tokens;
        room = 0;
        for (int i = 0; i < 6; i++)
            room += r.lengths[i];
    }
    for (int k = atoi(words[3]); k > 1; k--)
        r = pv_compute_stream_outputs(m, n, classes, places, lengths, places, out, room);
    printf("%zu measures, %zu tokens\n", n, r.tokens);
    return (int)r.refused;
}
