/* Calls every function on the paper's charts and checks answers, refusals and the elements that must stay as they were. */
#include "layout.h"
#include "puvolamie.h"

#include <inttypes.h>
#include <stdio.h>
#include <stdlib.h>
#include <string.h>

enum { GUARD = 16, MOST = 2048, LEFT = 0xA5 };

static size_t checks;
static size_t failures;
static const char *chart_name = "";

static void expect(bool holds, const char *what)
{
    checks++;
    if (!holds) {
        failures++;
        printf("chart %s: %s\n", chart_name, what);
    }
}

/* ---- memory that is lent, with guards around it */

static uint8_t text_area[GUARD + MOST + GUARD];
static uint8_t class_area[GUARD + MOST + GUARD];
static uint32_t length_area[GUARD + MOST + GUARD];
static pv_segment segment_area[GUARD + MOST + GUARD];

static uint8_t *const text = text_area + GUARD;
static uint8_t *const classes = class_area + GUARD;
static uint32_t *const lengths = length_area + GUARD;
static pv_segment *const segments = segment_area + GUARD;

static void lend(void)
{
    memset(text_area, LEFT, sizeof text_area);
    memset(class_area, LEFT, sizeof class_area);
    memset(length_area, LEFT, sizeof length_area);
    memset(segment_area, LEFT, sizeof segment_area);
}

/* Are all bytes of an area but `count` elements behind its guard as they were lent? */
static bool left_over(const void *area, size_t size, size_t element, size_t count)
{
    const uint8_t *bytes = area;
    for (size_t i = 0; i < size; i++) {
        bool written = i >= GUARD * element && i < (GUARD + count) * element;
        if (!written && bytes[i] != LEFT)
            return false;
    }
    return true;
}

static bool wrote(size_t bytes, size_t tokens)
{
    return left_over(text_area, sizeof text_area, 1, bytes) && left_over(class_area, sizeof class_area, 1, tokens) &&
           left_over(length_area, sizeof length_area, sizeof(uint32_t), tokens);
}

static bool wrote_segments(size_t count)
{
    return left_over(segment_area, sizeof segment_area, sizeof(pv_segment), count);
}

static bool same_text(const uint8_t *bytes, size_t length, const char *expected)
{
    return length == strlen(expected) && memcmp(bytes, expected, length) == 0;
}

static void expect_refused_text(pv_written r, uint32_t number, const char *what)
{
    expect(r.refused == number && r.length == 0, what);
    expect(wrote(0, 0), "a refused text writes nothing");
}

/* Of a call that was lent `room` bytes: the text due if they are enough, else the refusal 4. */
static void expect_text(pv_written r, size_t room, const char *due, const char *what)
{
    if (room < strlen(due)) {
        expect_refused_text(r, PV_TEXT_TOO_SHORT, "a short text array is refused");
    } else {
        expect(r.refused == PV_ACCEPTED && same_text(text, r.length, due), what);
        expect(wrote(strlen(due), 0), "later bytes are unchanged");
    }
}

/* ---- the paper's charts */

struct stretch {
    uint32_t density;
    size_t measures;
};

struct token {
    uint8_t class_number;
    uint32_t length;
};

struct chart {
    const char *name;
    struct stretch stretches[6];
    pv_counts counts; /* lead and tail last */
    uint32_t share; /* 0 without a stream measure */
    const char *texts[7]; /* SN detailed, partial, simplified, standard detailed, partial, simple, Total */
};

#define NONE "No Streams!"

static const struct chart charts[] = {
    {"1", {{0, 0}}, {0, 0, 0, 0, 0, 0, 0, 0}, 0, {"", "", "", NONE, NONE, NONE, NONE}},
    {"2", {{15, 1}}, {0, 0, 0, 0, 0, 0, 1, 0}, 0, {"", "", "", NONE, NONE, NONE, NONE}},
    {"3", {{16, 1}}, {1, 0, 0, 0, 0, 0, 0, 0}, 10000, {"1", "1", "1", "1", "1", "1", "1 Total"}},
    {"4", {{19, 1}, {20, 1}}, {1, 1, 0, 0, 0, 0, 0, 0}, 10000, {"1 ~1~", "1 ~1~", "1 ~1~", "2", "2", "2", "2 Total"}},
    {"5", {{16, 1}, {0, 1}, {16, 1}}, {2, 0, 0, 0, 0, 1, 0, 0}, 6666, {"1 1", "3*", "3*", "1-1", "1-1", "3*", "2 Total"}},
    {"6", {{16, 1}, {0, 4}, {16, 1}}, {2, 0, 0, 0, 4, 4, 0, 0}, 3333, {"1 (4) 1", "1 - 1", "6*", "1 (4) 1", "1-1", "1-1", "2 Total"}},
    {"7", {{16, 1}, {0, 5}, {16, 1}}, {2, 0, 0, 0, 5, 5, 0, 0}, 2857, {"1 (5) 1", "1 / 1", "1 / 1", "1 (5) 1", "1/1", "1/1", "2 Total"}},
    {"8", {{16, 1}, {0, 32}, {16, 1}}, {2, 0, 0, 0, 32, 32, 0, 0}, 588, {"1 (32) 1", "1 / 1", "1 / 1", "1 (32) 1", "1 | 1", "1 | 1", "2 Total"}},
    {"9", {{16, 1}, {0, 33}, {16, 1}}, {2, 0, 0, 0, 33, 33, 0, 0}, 571, {"1 (33) 1", "1 | 1", "1 | 1", "1 (33) 1", "1 | 1", "1 | 1", "2 Total"}},
    {"10", {{32, 1}, {0, 2}, {16, 1}}, {1, 0, 0, 1, 2, 2, 0, 0}, 5000, {"=1= (2) 1", "=1= - 1", "=3=* 1", "1 (2) 1", "1-1", "1-1", "2 Total"}},
    {"11", {{0, 2}, {16, 1}}, {1, 0, 0, 0, 2, 0, 2, 0}, 10000, {"1", "1", "1", "1", "1", "1", "1 Total"}},
    {"11, 1 q", {{0, 1}, {16, 1}}, {1, 0, 0, 0, 0, 0, 1, 0}, 10000, {"1", "1", "1", "1", "1", "1", "1 Total"}},
    {"12", {{16, 2}, {0, 1}, {20, 2}, {0, 3}, {16, 1}}, {3, 2, 0, 0, 3, 4, 0, 0}, 5555,
     {"2 ~2~ (3) 1", "2 ~2~ - 1", "2 ~5~* 1", "2-2 (3) 1", "2-2-1", "5*-1", "5 Total"}},
};

enum { CHARTS = sizeof charts / sizeof charts[0] };

static uint32_t m[MOST];
static size_t m_length;

static void load(const struct chart *chart)
{
    chart_name = chart->name;
    m_length = 0;
    for (const struct stretch *s = chart->stretches; s < chart->stretches + 6; s++)
        for (size_t i = 0; i < s->measures; i++)
            m[m_length++] = s->density;
}

/* The chart's stretches are its tokens; those of the active part leave breaks at both ends out. */
static size_t tokens_of(const struct chart *chart, struct token *tokens, bool active)
{
    size_t count = 0;
    for (const struct stretch *s = chart->stretches; s < chart->stretches + 6; s++) {
        uint32_t class_number = pv_categorize_measure_density(s->density);
        bool leading = active && count == 0 && class_number == PV_BREAK;
        if (s->measures != 0 && !leading) {
            tokens[count].class_number = (uint8_t)class_number;
            tokens[count++].length = (uint32_t)s->measures;
        }
    }
    while (active && count != 0 && tokens[count - 1].class_number == PV_BREAK)
        count--;
    return count;
}

/* ---- one text */

static pv_written write_text(int kind, size_t room)
{
    lend();
    if (kind < 3)
        return pv_generate_breakdown(m, m_length, text, room, (uint32_t)kind);
    return pv_stream_breakdown(m, m_length, text, room, (uint32_t)kind - 2);
}

static void test_text(const struct chart *chart, int kind)
{
    const char *due = chart->texts[kind];
    for (size_t room = 0; room <= strlen(due) + 3; room++)
        expect_text(write_text(kind, room), room, due, "one text");
}

static void test_three(const struct chart *chart, int first)
{
    char due[64] = "";
    for (int i = 0; i < 3; i++)
        strcat(due, chart->texts[first + i]);
    size_t length = strlen(due);
    for (size_t room = length == 0 ? 0 : length - 1; room <= length + 1; room++) {
        lend();
        pv_three_written r = first == 0 ? pv_generate_breakdowns(m, m_length, text, room)
                                        : pv_stream_breakdowns(m, m_length, text, room);
        bool accepted = room >= length;
        expect(r.refused == (accepted ? PV_ACCEPTED : PV_TEXT_TOO_SHORT), "three texts are accepted or refused");
        for (int i = 0; i < 3; i++)
            expect(r.lengths[i] == (accepted ? strlen(chart->texts[first + i]) : 0), "lengths of three texts");
        expect(!accepted || memcmp(text, due, length) == 0, "three texts");
        expect(wrote(accepted ? length : 0, 0), "three texts leave the rest");
    }
}

/* ---- the pass */

static bool same_counts(pv_counts a, pv_counts b)
{
    return memcmp(&a, &b, sizeof a) == 0;
}

static void check_pass(const struct chart *chart, pv_outputs r)
{
    struct token tokens[6];
    size_t count = tokens_of(chart, tokens, true);
    expect(r.refused == PV_ACCEPTED, "the pass is accepted");
    expect(same_counts(r.counts, chart->counts), "counts of the pass");
    expect(r.tokens == count, "number of tokens");
    for (size_t i = 0; i < count; i++)
        expect(classes[i] == tokens[i].class_number && lengths[i] == tokens[i].length, "a token of the pass");
    const uint8_t *at = text;
    for (int i = 0; i < 6; i++) {
        expect(same_text(at, r.lengths[i], chart->texts[i]), "a text of the pass");
        at += r.lengths[i];
    }
    expect(wrote((size_t)(at - text), count), "the pass leaves the rest");
}

static void check_refused_pass(pv_outputs r, uint32_t number)
{
    pv_counts none = {0, 0, 0, 0, 0, 0, 0, 0};
    expect(r.refused == number && same_counts(r.counts, none) && r.tokens == 0, "a refused pass");
    for (int i = 0; i < 6; i++)
        expect(r.lengths[i] == 0, "a refused pass has no lengths");
    expect(wrote(0, 0), "a refused pass writes nothing");
}

static pv_outputs pass(size_t class_places, size_t length_places, size_t room)
{
    lend();
    return pv_compute_stream_outputs(m, m_length, classes, class_places, lengths, length_places, text, room);
}

static void test_pass(const struct chart *chart)
{
    struct token tokens[6];
    size_t count = tokens_of(chart, tokens, true);
    size_t due = 0;
    for (int i = 0; i < 6; i++)
        due += strlen(chart->texts[i]);
    check_pass(chart, pass(count, count, due));
    check_pass(chart, pass(count + 1, count + 2, due + 3));
    check_pass(chart, pass(m_length, m_length, 17 * m_length + 33));
    if (count != 0) {
        check_refused_pass(pass(count - 1, count, due), PV_TOO_FEW_TOKENS);
        check_refused_pass(pass(count, count - 1, due), PV_TOO_FEW_TOKENS);
        check_refused_pass(pass(0, 0, 0), PV_TOO_FEW_TOKENS);
    }
    check_refused_pass(pass(count, count, due - 1), PV_TEXT_TOO_SHORT);
}

/* ---- what is read off a chart */

static size_t measures_in(pv_counts c)
{
    return (size_t)c.run16_streams + c.run20_streams + c.run24_streams + c.run32_streams + c.sn_breaks + c.lead + c.tail;
}

/* The counts line for boards, by the counts of the same measures. */
static void expect_board_counts(const uint32_t *measures, size_t length, pv_counts c)
{
    static const size_t rooms[] = {0, 63, 64, 70};
    char due[128];
    int bytes = snprintf(due, sizeof due,
        "%7" PRIu32 " %7" PRIu32 " %7" PRIu32 " %7" PRIu32 " %7" PRIu32 " %7" PRIu32 " %7" PRIu32 " %7" PRIu32 "\n",
        c.run16_streams, c.run20_streams, c.run24_streams, c.run32_streams, c.total_breaks, c.sn_breaks, c.lead, c.tail);
    expect(bytes == 64, "the counts line for boards has 64 bytes");
    for (size_t i = 0; i < sizeof rooms / sizeof rooms[0]; i++) {
        lend();
        pv_written r = pv_board_counts(measures, length, text, rooms[i]);
        if (length > PV_MOST_MEASURES)
            expect_refused_text(r, PV_TOO_MANY_MEASURES, "no counts line for boards of too many measures");
        else
            expect_text(r, rooms[i], due, "the counts line for boards");
    }
}

/* Counts by both calls: those due, or all 0 where there are too many measures; and their line for boards. */
static void expect_counts(const uint32_t *measures, size_t length, pv_counts due)
{
    const pv_counts none = {0, 0, 0, 0, 0, 0, 0, 0};
    bool accepted = length <= PV_MOST_MEASURES;
    uint32_t number = accepted ? PV_ACCEPTED : PV_TOO_MANY_MEASURES;
    lend();
    pv_counts_answer c = pv_compute_stream_counts(measures, length);
    pv_outputs r = pv_compute_stream_outputs(measures, length, classes, MOST, lengths, MOST, text, MOST);
    expect(c.refused == number && same_counts(c.counts, accepted ? due : none), "counts");
    expect(r.refused == number && same_counts(r.counts, accepted ? due : none), "counts of the pass");
    expect(measures_in(c.counts) == (accepted ? length : 0), "the counts add up to the measures");
    expect(measures_in(r.counts) == (accepted ? length : 0), "the counts of the pass add up to the measures");
    expect_board_counts(measures, length, c.counts);
}

static uint32_t wide(uint32_t gap)
{
    return gap < 2 ? 0 : gap;
}

/* The chart's counts with so many breaks before it and behind it; without a stream measure all are in lead. */
static pv_counts longer_counts(const struct chart *chart, size_t before, size_t behind)
{
    pv_counts due = chart->counts;
    if (chart->share == 0) {
        due.lead = (uint32_t)(before + m_length + behind);
        return due;
    }
    due.lead += (uint32_t)before;
    due.tail += (uint32_t)behind;
    due.total_breaks += wide(due.lead) - wide(chart->counts.lead);
    due.total_breaks += wide(due.tail) - wide(chart->counts.tail);
    return due;
}

/* The chart's share and counts with so many breaks before it and behind it. */
static void expect_longer(const struct chart *chart, size_t before, size_t behind)
{
    static uint32_t longer[MOST];
    size_t end = before + m_length;
    for (size_t i = 0; i < end + behind; i++)
        longer[i] = i >= before && i < end ? m[i - before] : 15;
    pv_share_answer s = pv_share(longer, end + behind);
    uint32_t number = chart->share == 0 ? PV_NO_STREAM_MEASURE : PV_ACCEPTED;
    expect(s.refused == number && s.share == chart->share, "share");
    expect_counts(longer, end + behind, longer_counts(chart, before, behind));
}

static void test_longer(const struct chart *chart)
{
    expect_longer(chart, 0, 0);
    for (size_t breaks = 1; breaks < 4; breaks++) {
        expect_longer(chart, breaks, 0);
        expect_longer(chart, 0, breaks);
        expect_longer(chart, breaks, 100 * breaks);
        expect_longer(chart, 100 * breaks, breaks);
    }
}

static void test_active_range(void)
{
    size_t first = 0;
    size_t end = m_length;
    while (first < m_length && m[first] < 16)
        first++;
    while (end > first && m[end - 1] < 16)
        end--;
    pv_range r = pv_active_range(m, m_length);
    expect(r.length == end - first && (r.length == 0 || r.start == first), "active part");
    expect(r.start + r.length <= m_length, "the active part lies in the measures");
}

static void test_tokens(const struct chart *chart)
{
    struct token tokens[6];
    size_t count = tokens_of(chart, tokens, false);
    size_t passed = 0;
    for (size_t k = 0; k < count + 2; k++) {
        pv_nth_token_answer nth = pv_nth_token(m, m_length, k);
        pv_nth_token_answer step = pv_nth_token(m + passed, m_length - passed, 0);
        bool ended = k >= count;
        uint8_t class_number = ended ? 0 : tokens[k].class_number;
        uint32_t length = ended ? 0 : tokens[k].length;
        expect(nth.refused == PV_ACCEPTED && nth.token.ended == ended, "a token, or ended");
        expect(nth.token.class_number == class_number && nth.token.length == length, "a token's class and length");
        expect(memcmp(&nth.token.length, &step.token.length, 4) == 0 && step.token.ended == ended &&
                   step.token.class_number == class_number && step.refused == PV_ACCEPTED,
               "a step from what is left");
        passed += step.token.length;
    }
}

static size_t expected_segments(pv_segment *due)
{
    size_t count = 0;
    bool streams = pv_active_range(m, m_length).length != 0;
    for (size_t at = 0, end; streams && at < m_length; at = end) {
        for (end = at + 1; end < m_length && (m[end] < 16) == (m[at] < 16); end++)
            ;
        if (m[at] >= 16 || end - at >= 2) {
            due[count].start = at;
            due[count].end = end;
            due[count++].is_break = m[at] < 16;
        }
    }
    return count;
}

static bool same_segment(pv_segment a, pv_segment b)
{
    return a.start == b.start && a.end == b.end && a.is_break == b.is_break;
}

static void test_segments(void)
{
    pv_segment due[8];
    const pv_segment none = {0, 0, false};
    size_t count = expected_segments(due);
    for (size_t k = 0; k < count + 2; k++) {
        pv_nth_segment r = pv_segment_at(m, m_length, k);
        expect(r.refused == PV_ACCEPTED && r.found == (k < count), "is there a segment?");
        expect(same_segment(r.segment, k < count ? due[k] : none), "segment by number");
    }
    for (size_t places = 0; places < count + 3; places++) {
        lend();
        pv_segments_answer r = pv_stream_sequences(m, m_length, segments, places);
        bool accepted = places >= count;
        expect(r.refused == (accepted ? PV_ACCEPTED : PV_TOO_FEW_SEGMENTS), "segments are accepted or refused");
        expect(r.count == (accepted ? count : 0), "number of segments");
        for (size_t k = 0; accepted && k < count; k++)
            expect(same_segment(segments[k], due[k]), "a segment");
        expect(wrote_segments(accepted ? count : 0), "segments leave the rest");
    }
}

static void test_alike(const struct chart *chart)
{
    static uint32_t other[MOST];
    size_t other_length = m_length;
    memcpy(other, m, sizeof m);
    for (const struct chart *second = charts; second < charts + CHARTS; second++) {
        load(second);
        pv_alike_answer r = pv_alike(other, other_length, m, m_length);
        expect(r.refused == PV_ACCEPTED && r.alike == (strcmp(chart->texts[3], second->texts[3]) == 0), "alike");
    }
    load(chart);
}

static void test_label(const struct chart *chart)
{
    for (size_t width = 0; width < 14; width++) {
        int level = 1;
        while (level < 5 && strlen(chart->texts[2 + level]) > width)
            level++;
        lend();
        pv_label_written r = pv_label(m, m_length, text, MOST, width);
        if (level == 5) {
            expect(r.refused == PV_NO_LEVEL_FITS && r.level == 0 && r.length == 0 && wrote(0, 0), "no level fits");
            continue;
        }
        const char *due = chart->texts[2 + level];
        expect(r.refused == PV_ACCEPTED && r.level == (uint32_t)level, "the label's level");
        expect(same_text(text, r.length, due) && wrote(strlen(due), 0), "the label's text");
        lend();
        r = pv_label(m, m_length, text, strlen(due) - 1, width);
        expect(r.refused == PV_TEXT_TOO_SHORT && r.level == 0 && r.length == 0 && wrote(0, 0), "a short label");
    }
}

static void test_chart(const struct chart *chart)
{
    load(chart);
    for (int kind = 0; kind < 7; kind++)
        test_text(chart, kind);
    test_three(chart, 0);
    test_three(chart, 3);
    test_pass(chart);
    test_longer(chart);
    test_active_range();
    test_tokens(chart);
    test_segments();
    test_alike(chart);
    test_label(chart);
}

/* ---- calls on no chart */

/* At every width; in slices that are one byte short, exact and longer. */
static void check_number(uint64_t n)
{
    for (uint32_t width = 0; width <= 20; width++) {
        char due[32];
        size_t length = (size_t)snprintf(due, sizeof due, "%*" PRIu64, (int)width, n);
        for (size_t room = length - 1; room <= length + 3; room++) {
            lend();
            expect_text(pv_push_u64(text, room, n, width), room, due, "a number");
        }
    }
}

/* The least and the most number of each number of digits, and those around 2^32. */
static void test_numbers(void)
{
    const uint64_t numbers[] = {0, 4294967295u, 4294967296u, UINT64_MAX};
    uint64_t power = 1;
    chart_name = "none: numbers";
    for (size_t i = 0; i < sizeof numbers / sizeof numbers[0]; i++)
        check_number(numbers[i]);
    for (int digits = 2; digits <= 20; digits++) {
        power *= 10;
        check_number(power - 1);
        check_number(power);
    }
}

/* Some have the lowest byte 0. Question 20 comes before question 4. */
static void test_large_widths(void)
{
    static const uint32_t widths[] = {21, 22, 256, 65536, 1u << 31, UINT32_MAX};
    static const size_t rooms[] = {0, 1, 19, 20, 21, MOST};
    chart_name = "none: large widths";
    for (size_t i = 0; i < sizeof widths / sizeof widths[0]; i++)
        for (size_t k = 0; k < sizeof rooms / sizeof rooms[0]; k++) {
            lend();
            expect_refused_text(pv_push_u64(text, rooms[k], 7, widths[i]), PV_WIDTH_TOO_LARGE, "one digit at a large width");
            expect_refused_text(pv_push_u64(text, rooms[k], UINT64_MAX, widths[i]), PV_WIDTH_TOO_LARGE, "20 digits at a large width");
        }
}

/* An array of 0 elements may have any pointer. */
static void test_no_places(void)
{
    chart_name = "none: no places";
    expect(pv_push_u64(NULL, 0, 7, 0).refused == PV_TEXT_TOO_SHORT, "a number");
    expect(pv_push_u64(NULL, 0, 7, 21).refused == PV_WIDTH_TOO_LARGE, "a number at a large width");
    expect(pv_board_counts(NULL, 0, NULL, 0).refused == PV_TEXT_TOO_SHORT, "the counts line for boards");
}

static void test_run_symbols(void)
{
    static const char signs[] = {' ', ' ', '~', '\\', '='};
    chart_name = "none: run symbols";
    for (uint32_t class_number = 0; class_number < 7; class_number++) {
        for (int star = 0; star < 2; star++) {
            char due[32];
            bool bare = class_number == PV_RUN16;
            char sign[2] = {class_number < 5 && !bare ? signs[class_number] : '\0', '\0'};
            sprintf(due, "%s%llu%s%s", sign, (unsigned long long)UINT64_MAX, sign, star ? "*" : "");
            lend();
            pv_written r = pv_format_run_symbol(text, MOST, class_number, UINT64_MAX, star);
            if (class_number == PV_BREAK || class_number > PV_RUN32) {
                expect(r.refused == PV_NO_STREAM_CLASS && r.length == 0 && wrote(0, 0), "no stream class");
                continue;
            }
            expect(r.refused == PV_ACCEPTED && same_text(text, r.length, due) && wrote(strlen(due), 0), "a run symbol");
            lend();
            r = pv_format_run_symbol(text, strlen(due) - 1, class_number, UINT64_MAX, star);
            expect(r.refused == PV_TEXT_TOO_SHORT && r.length == 0 && wrote(0, 0), "a run symbol in too few bytes");
        }
    }
}

static void test_classes(void)
{
    chart_name = "none: classes";
    const uint32_t densities[] = {0, 15, 16, 19, 20, 23, 24, 31, 32, UINT32_MAX};
    for (uint32_t i = 0; i < 10; i++)
        expect(pv_categorize_measure_density(densities[i]) == i / 2, "a class");
}

static void test_numbers_that_stand_for_none(void)
{
    load(&charts[CHARTS - 1]);
    const uint32_t modes[] = {3, 4, 255, UINT32_MAX};
    const uint32_t levels[] = {0, 5, 256, UINT32_MAX};
    for (int i = 0; i < 4; i++) {
        lend();
        pv_written r = pv_generate_breakdown(m, m_length, text, MOST, modes[i]);
        expect(r.refused == PV_NO_SUCH_NUMBER && r.length == 0 && wrote(0, 0), "no mode");
        r = pv_stream_breakdown(m, m_length, text, MOST, levels[i]);
        expect(r.refused == PV_NO_SUCH_NUMBER && r.length == 0 && wrote(0, 0), "no level");
    }
}

static void test_label_pair(void)
{
    chart_name = "none: label pair";
    const uint8_t first[] = {'f', 'i', 'r', 's', 't'};
    const uint8_t second[] = {'t', 'w', 'o'};
    for (size_t width = 0; width < 7; width++) {
        pv_pair_part r = pv_label_pair(first, 5, second, 3, width);
        bool fits_second = width >= 3 && width < 5;
        size_t length = width >= 5 ? 5 : fits_second ? 3 : 0;
        expect(r.second == fits_second && r.length == length, "label pair");
    }
    pv_pair_part r = pv_label_pair(first, 5, second, 0, 4);
    expect(r.second && r.length == 0, "an empty second text fits");
}

/* ---- the chart record */

static void check_record(const uint8_t *bytes, size_t length, size_t places, uint32_t number)
{
    lend();
    pv_record_answer r = pv_read_chart_record(bytes, length, lengths, places);
    bool accepted = number == PV_ACCEPTED;
    expect(r.refused == number && r.measures == (accepted ? 9 : 0), "a record is accepted or refused");
    expect(r.name_start == (accepted ? 3 : 0) && r.name_length == (accepted ? 1 : 0), "the name's place");
    expect(wrote(0, 0) || accepted, "a refused record writes nothing");
    expect(!accepted || left_over(length_area, sizeof length_area, 4, 9), "a record leaves the rest");
}

static void test_record(void)
{
    const uint8_t bytes[] = {1, 0, 1, 0x41, 2, 0, 9, 0x10, 0x10, 0, 0x14, 0x14, 0, 0, 0, 0x10};
    uint8_t changed[sizeof bytes];
    chart_name = "12, as a record";
    check_record(bytes, sizeof bytes, 8, PV_TOO_FEW_DENSITIES);
    check_record(bytes, sizeof bytes, 10, PV_ACCEPTED);
    check_record(bytes, sizeof bytes, 9, PV_ACCEPTED);
    load(&charts[CHARTS - 1]);
    expect(memcmp(lengths, m, 9 * sizeof m[0]) == 0, "a record's densities");
    check_record(bytes, sizeof bytes - 1, 9, PV_PAYLOAD_CUT);
    check_record(bytes, 0, 9, PV_NAME_NOT_FIRST);
    memcpy(changed, bytes, sizeof bytes);
    changed[4] = 3;
    check_record(changed, sizeof bytes, 9, PV_UNKNOWN_TAG);
    changed[4] = 2;
    changed[3] = 0x1F;
    check_record(changed, sizeof bytes, 9, PV_BAD_NAME);
}

/* A field of two bytes, first or behind the name, cut behind each of its bytes: whatever its tag, 8 and 17 are asked before 9. */
static void test_cut_record(void)
{
    static const uint8_t tags[] = {0, 1, 2, 3, 255};
    chart_name = "cut, as a record";
    for (size_t i = 0; i < sizeof tags; i++)
        for (size_t at = 0; at <= 4; at += 4) {
            uint8_t bytes[] = {1, 0, 1, 'A', 0, 0, 0, 0};
            const uint8_t cut[] = {tags[i], 0, 2, 'B'};
            memcpy(bytes + at, cut, sizeof cut);
            for (size_t size = 1; size <= sizeof cut; size++)
                check_record(bytes, at + size, 9, size < 3 ? PV_FIELD_CUT_SHORT : PV_PAYLOAD_CUT);
        }
}

/* ---- note rows */

static void check_rows(const char *rows, size_t places, uint32_t number, const uint32_t *due, size_t measures)
{
    size_t size = (GUARD + places + GUARD) * sizeof(uint32_t);
    uint32_t *area = malloc(size);
    bool accepted = number == PV_ACCEPTED;
    memset(area, LEFT, size);
    pv_rows_answer r = pv_read_note_rows((const uint8_t *)rows, strlen(rows), area + GUARD, places);
    expect(r.refused == number && r.measures == (accepted ? measures : 0), "note rows are accepted or refused");
    expect(!accepted || memcmp(area + GUARD, due, measures * sizeof *due) == 0, "densities of note rows");
    expect(left_over(area, size, sizeof *area, accepted ? measures : 0), "note rows leave the rest");
    free(area);
}

static void accept_rows(const char *rows, const uint32_t *due, size_t measures)
{
    check_rows(rows, measures, PV_ACCEPTED, due, measures);
    check_rows(rows, measures + 3, PV_ACCEPTED, due, measures);
    check_rows(rows, measures - 1, PV_TOO_FEW_DENSITIES, NULL, 0);
}

static void refuse_rows(const char *rows, uint32_t number)
{
    check_rows(rows, 0, number, NULL, 0);
    check_rows(rows, strlen(rows), number, NULL, 0);
}

static void test_rows(void)
{
    static const char *const bad_lines[] = {
        ";", ",", "1000", "1000\n;", "\n;\n", "100\n;\n", "10000\n;\n", "1000\r\n;\n",
        "1000 \n;\n", "1000 ;\n", ",,\n;\n", ";;\n", " ;\n", "5000\n;\n", "/000\n;\n", "00m0\n;\n"};
    static const char *const bad_ends[] = {"", "1000\n", ",\n", "1000\n,\n0000\n", ";\n\n", ";\n;\n", ";\n1000\n", ";\n?"};
    const uint32_t due[] = {4, 0, 1, 0};
    chart_name = "as note rows";
    accept_rows(";\n", due + 1, 1);
    accept_rows("4000\n,\n;\n", due + 2, 2);
    accept_rows("1000\n0200\n0040\n0001\n0003\nM000\n0000\n,\n,\n0000\n124M\n,\n33MM\n;\n", due, 4);
    for (size_t i = 0; i < sizeof bad_lines / sizeof bad_lines[0]; i++)
        refuse_rows(bad_lines[i], PV_BAD_LINE);
    for (size_t i = 0; i < sizeof bad_ends / sizeof bad_ends[0]; i++)
        refuse_rows(bad_ends[i], PV_BAD_END);
    expect(pv_read_note_rows(NULL, 0, NULL, 0).refused == PV_BAD_END, "no text at all");
}

/* A line so many times, and the end of what was written. */
static char *repeat(char *at, const char *line, size_t times)
{
    size_t length = strlen(line);
    for (size_t i = 0; i < times; i++, at += length)
        memcpy(at, line, length);
    *at = '\0';
    return at;
}

static void test_full_measures(void)
{
    static const struct {
        const char *lines;
        uint32_t number;
    } behind[] = {
        {"", PV_BAD_END}, {"0000", PV_BAD_LINE}, {"000\n", PV_BAD_LINE}, {"0000\n", PV_TOO_MANY_ROWS}, {"0000\n;\n", PV_TOO_MANY_ROWS}};
    static char rows[2048];
    const uint32_t due[] = {192, 192};
    char *full = repeat(rows, "M124\n", 192);
    for (size_t i = 0; i < sizeof behind / sizeof behind[0]; i++) {
        strcpy(full, behind[i].lines);
        refuse_rows(rows, behind[i].number);
    }
    strcpy(full, ";\n");
    accept_rows(rows, due, 1);
    full = repeat(full, ",\n", 1);
    full = repeat(full, "3421\n", 192);
    strcpy(full, ";\n");
    accept_rows(rows, due, 2);
}

/* Rows in the first and the last measure only. */
static void test_long_rows(size_t measures)
{
    char *rows = malloc(2 * measures + 64);
    uint32_t *due = calloc(measures, sizeof *due);
    due[0] = 2;
    due[measures - 1] = 1;
    strcpy(rows, "1000\n0000\n0240\n");
    char *last = repeat(rows + strlen(rows), ",\n", measures - 1);
    strcpy(last, "M300\n4444\n;\n");
    if (measures <= PV_MOST_MEASURES) {
        accept_rows(rows, due, measures);
    } else {
        refuse_rows(rows, PV_TOO_MANY_MEASURES);
        check_rows(rows, measures, PV_TOO_MANY_MEASURES, NULL, 0);
        check_rows(rows, measures - 1, PV_TOO_MANY_MEASURES, NULL, 0);
        strcpy(last, "M300\n4444\n;\n;");
        refuse_rows(rows, PV_BAD_END);
    }
    free(due);
    free(rows);
}

/* ---- SN texts */

/* Slices without a place, one short, exact, longer, or, where the text is refused, as long as it. */
static void check_sn(const char *sn, uint32_t number, const char *due)
{
    size_t length = strlen(due);
    size_t most = number == PV_ACCEPTED ? length + 3 : strlen(sn) + 11;
    for (size_t room = 0; room <= most; room++) {
        bool fits = number == PV_ACCEPTED && room >= length;
        lend();
        pv_written r = pv_sn_to_standard((const uint8_t *)sn, strlen(sn), text, room);
        expect(r.refused == (number != PV_ACCEPTED ? number : fits ? PV_ACCEPTED : PV_TEXT_TOO_SHORT), "an SN text is accepted or refused");
        expect(fits ? same_text(text, r.length, due) : r.length == 0, "the standard text of an SN text");
        expect(wrote(fits ? length : 0, 0), "an SN text leaves the rest");
    }
}

static void test_sn_texts(void)
{
    static const char *const undecided[] = {"1 ~1~", "2 ~2~ (3) 1", "1048575 ~1~", "=1= (2) 1 \\1\\"};
    static const char *const wrong[] = {
        "0", "01", " ", " 1", "1 ", "1  1", "(2)", "(2) 1", "1 (2)", "1 (1) 1", "1 (02) 1", "1 (2) (2) 1", "1 (2)1", "1(2) 1",
        "~1", "1~", "~1=", "~~", "3*", "~3~*", "1 - 1", "1-1", "No Streams!", "1\n", "1048577", "4294967297", "1048576 1", "1048576 ~1~"};
    chart_name = "none: SN texts";
    check_sn("", PV_ACCEPTED, "No Streams!");
    check_sn("1", PV_ACCEPTED, "1");
    check_sn("1 1", PV_ACCEPTED, "1-1");
    check_sn("=1= (2) 1", PV_ACCEPTED, "1 (2) 1");
    check_sn("1 (1048574) 1", PV_ACCEPTED, "1 (1048574) 1");
    check_sn("~12~ ~3~ (33) \\4\\ \\5\\ (2) =6=", PV_ACCEPTED, "12-3 (33) 4-5 (2) 6");
    for (size_t i = 0; i < sizeof undecided / sizeof undecided[0]; i++)
        check_sn(undecided[i], PV_UNDECIDED, "");
    for (size_t i = 0; i < sizeof wrong / sizeof wrong[0]; i++)
        check_sn(wrong[i], PV_BAD_SN_TEXT, "");
    expect(pv_sn_to_standard(NULL, 0, NULL, 0).refused == PV_TEXT_TOO_SHORT, "no text at all, and no place");
}

/* ---- what `sheet` prints */

static void check_sheet(const uint8_t *bytes, size_t length, const char *printed)
{
    pv_sheet r = pv_print_sheet(bytes, length);
    expect(r.length == strlen(printed) && memcmp(r.bytes, printed, r.length) == 0, "sheet");
}

static void test_sheet(void)
{
    static const uint8_t bytes[] = {1, 0, 1, 'A', 2, 0, 9, 16, 16, 0, 20, 20, 0, 0, 0, 16};
    static const uint8_t led_in[] = {1, 0, 1, 'B', 2, 0, 5, 15, 16, 0, 0, 0};
    static const uint8_t quiet[] = {1, 0, 1, 'C', 2, 0, 2, 15, 0};
    static const uint8_t long_input[16385];
    chart_name = "a record";
    check_sheet(bytes, sizeof bytes,
        "A\n3 2 0 0 3 4 0 0\n2 ~2~ (3) 1\n2 ~2~ - 1\n2 ~5~* 1\n2-2 (3) 1\n2-2-1\n5*-1\n5 Total\n");
    check_sheet(led_in, sizeof led_in, "B\n1 0 0 0 3 0 1 3\n1\n1\n1\n1\n1\n1\n1 Total\n");
    check_sheet(quiet, sizeof quiet, "C\n0 0 0 0 0 0 2 0\n\n\n\n" NONE "\n" NONE "\n" NONE "\n" NONE "\n");
    check_sheet(bytes, 2, "refused 8\n");
    check_sheet(bytes, 3, "refused 17\n");
    check_sheet(bytes, 0, "refused 10\n");
    check_sheet(long_input, sizeof long_input, "refused 13\n");
}

/* ---- the domain's edge */

static void test_domain(size_t measures)
{
    uint32_t *chart = malloc(measures * sizeof *chart);
    uint32_t number = measures > PV_MOST_MEASURES ? PV_TOO_MANY_MEASURES : PV_ACCEPTED;
    chart_name = "of the domain's edge";
    for (size_t i = 0; i < measures; i++)
        chart[i] = 16;
    uint32_t few = (uint32_t)(number == PV_ACCEPTED ? measures : 0);
    const pv_counts counts = {few, 0, 0, 0, 0, 0, 0, 0};
    lend();
    pv_outputs r = pv_compute_stream_outputs(chart, measures, classes, 1, lengths, 1, text, MOST);
    expect(r.refused == number && same_counts(r.counts, counts) && r.tokens == (few != 0), "the pass");
    expect(few != 0 || wrote(0, 0), "the refused pass writes nothing");
    expect_counts(chart, measures, counts);
    pv_share_answer s = pv_share(chart, measures);
    expect(s.refused == number && s.share == (few != 0 ? 10000 : 0), "share");
    expect(pv_alike(chart, measures, m, m_length).refused == number, "alike, first");
    expect(pv_alike(m, m_length, chart, measures).refused == number, "alike, second");
    expect(pv_segment_at(chart, measures, 0).refused == number, "segment by number");
    expect(pv_stream_sequences(chart, measures, segments, 1).refused == number, "segments");
    pv_nth_token_answer t = pv_nth_token(chart, measures, 0);
    expect(t.refused == number && !t.token.ended, "token; a refused one is not ended");
    expect(t.token.class_number == (few != 0) && t.token.length == few, "a token's class and length, 0 in a refusal");
    t = pv_nth_token(chart, measures, 1);
    expect(t.refused == number && t.token.ended == (few != 0), "ended past the last token, and in no refusal");
    expect(t.token.class_number == 0 && t.token.length == 0, "no class and no length there");
    expect(pv_generate_breakdown(chart, measures, text, MOST, 2).refused == number, "SN text");
    expect(pv_stream_breakdown(chart, measures, text, MOST, 4).refused == number, "standard text");
    expect(pv_generate_breakdowns(chart, measures, text, MOST).refused == number, "SN texts");
    expect(pv_stream_breakdowns(chart, measures, text, MOST).refused == number, "standard texts");
    expect(pv_label(chart, measures, text, MOST, 11).refused == number, "label");
    expect(pv_active_range(chart, measures).length == measures, "active part");
    free(chart);
}

/* Breaks alone, and with one stream measure. */
static void test_ends_of_domain(size_t measures)
{
    uint32_t *chart = malloc(measures * sizeof *chart);
    const uint32_t all = (uint32_t)measures;
    const uint32_t places[] = {0, 1, 2, all / 2, all - 3, all - 2, all - 1};
    chart_name = "of breaks, of the domain's edge";
    for (size_t i = 0; i < measures; i++)
        chart[i] = 15;
    expect_counts(chart, measures, (pv_counts){0, 0, 0, 0, 0, 0, all, 0});
    for (size_t i = 0; i < sizeof places / sizeof places[0]; i++) {
        uint32_t lead = places[i];
        uint32_t tail = all - lead - 1;
        chart[lead] = 20;
        expect_counts(chart, measures, (pv_counts){0, 1, 0, 0, wide(lead) + wide(tail), 0, lead, tail});
        chart[lead] = 15;
    }
    free(chart);
}

int main(void)
{
    for (const struct chart *chart = charts; chart < charts + CHARTS; chart++)
        test_chart(chart);
    test_numbers();
    test_large_widths();
    test_no_places();
    test_run_symbols();
    test_classes();
    test_numbers_that_stand_for_none();
    test_label_pair();
    test_record();
    test_cut_record();
    test_rows();
    test_full_measures();
    test_long_rows(4096);
    test_long_rows(4097);
    test_sn_texts();
    test_sheet();
    for (size_t measures = PV_MOST_MEASURES - 1; measures <= PV_MOST_MEASURES + 1; measures++) {
        test_domain(measures);
        test_ends_of_domain(measures);
        test_long_rows(measures);
    }
    printf("c: %zu checks, %zu failed\n", checks, failures);
    return failures != 0;
}
