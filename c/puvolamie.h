/* Stream breakdown of dance game charts: the proved calls, for C and C++.
 *
 * A chart is an array of densities, one uint32_t for each measure, at most PV_MOST_MEASURES of them. Memory is lent: each array
 * passes as a pointer and the number of its elements, and no call keeps a pointer, allocates, prints or fails in another way than
 * by its answer. An array of 0 elements may have any pointer. Arrays that a call writes to may overlap no other array of the call.
 *
 * An answer carries a number `refused`: 0 where the call is accepted, else the number of the first question that was answered
 * with no (below; each call says in which order it asks them). A refused call writes nothing, and all else in its answer is 0 or
 * false. Four answers carry no number: pv_categorize_measure_density, pv_active_range and pv_label_pair take whatever they are
 * given, and pv_print_sheet gives the bytes to print, which for a refused record are the line "refused N".
 * An accepted call writes from an array's start and leaves the elements after what it wrote as they were. Texts have no final 0.
 *
 * The library is one ELF object for x86-64 Linux, little-endian, called by the System V ABI (target x86_64-unknown-linux-gnu). From
 * outside it needs memcpy and memset alone. pv_print_sheet, which needs much stack, says how much.
 */
#ifndef PUVOLAMIE_H
#define PUVOLAMIE_H

#include <stdbool.h>
#include <stddef.h>
#include <stdint.h>

#ifdef __cplusplus
extern "C" {
#endif

/* The questions' numbers. */
enum {
    PV_ACCEPTED = 0,
    PV_TOO_MANY_MEASURES = 1,   /* At most PV_MOST_MEASURES measures? */
    PV_TOO_FEW_TOKENS = 2,      /* A place in both token arrays for each token? */
    PV_TOO_FEW_SEGMENTS = 3,    /* A place for each segment? */
    PV_TEXT_TOO_SHORT = 4,      /* Is the text array as long as all the text due? */
    PV_NO_STREAM_CLASS = 5,     /* A stream class for a run symbol? */
    PV_NO_LEVEL_FITS = 6,       /* Does some level fit the label's width? */
    PV_NO_STREAM_MEASURE = 7,   /* A stream measure, for share? */
    PV_FIELD_CUT_SHORT = 8,     /* Three head bytes present? */
    PV_UNKNOWN_TAG = 9,         /* Tag 01 or 02? */
    PV_NAME_NOT_FIRST = 10,     /* A name as first field and nowhere else? */
    PV_BAD_NAME = 11,           /* Name of 1 to 64 bytes from 20 to 7E? */
    PV_TOO_FEW_DENSITIES = 12,  /* A place in the density array for each measure? */
    PV_INPUT_TOO_LONG = 13,     /* At most 16,384 bytes of input? pv_print_sheet only, as the line "refused 13". */
    PV_BAD_LINE = 14,           /* A row, "," or ";", each ended by 0A? */
    PV_TOO_MANY_ROWS = 15,      /* At most 192 rows in the measure? */
    PV_BAD_END = 16,            /* The line ";", and nothing after it? */
    PV_PAYLOAD_CUT = 17,        /* The whole payload present? Asked straight after 8 for the same field. */
    PV_BAD_SN_TEXT = 18,        /* Runs and breaks by the rules, with at most PV_MOST_MEASURES measures? */
    PV_UNDECIDED = 19,          /* Is each gap decided, no two neighbouring runs having different classes? */
    PV_WIDTH_TOO_LARGE = 20,    /* A width of at most 20? Asked first. */
    PV_NO_SUCH_NUMBER = 100     /* Does the number stand for a mode, or a level? Asked first. */
};

enum { PV_MOST_MEASURES = 1048576 };

/* Classes of measures: below 16, from 16, from 20, from 24, from 32. */
enum { PV_BREAK = 0, PV_RUN16 = 1, PV_RUN20 = 2, PV_RUN24 = 3, PV_RUN32 = 4 };

/* Modes of the SN texts. */
enum { PV_MODE_DETAILED = 0, PV_MODE_PARTIAL = 1, PV_MODE_SIMPLIFIED = 2 };

/* Levels of the standard texts. */
enum { PV_LEVEL_DETAILED = 1, PV_LEVEL_PARTIAL = 2, PV_LEVEL_SIMPLE = 3, PV_LEVEL_TOTAL = 4 };

typedef struct { /* one text, by its length */
    uint32_t refused;
    size_t length;
} pv_written;

typedef struct { /* three texts end to end, by their lengths */
    uint32_t refused;
    size_t lengths[3];
} pv_three_written;

typedef struct { /* measures of each stream class; gaps of 2 or more, lead-in and tail included; breaks in the active part */
    uint32_t run16_streams;
    uint32_t run20_streams;
    uint32_t run24_streams;
    uint32_t run32_streams;
    uint32_t total_breaks;
    uint32_t sn_breaks;
    uint32_t lead; /* measures before the active part; all measures of a chart without a stream measure */
    uint32_t tail; /* measures after the active part */
} pv_counts;

typedef struct {
    uint32_t refused;
    pv_counts counts;
} pv_counts_answer;

typedef struct { /* of the pass: SN detailed, partial, simplified, standard detailed, partial, simple, by their lengths */
    uint32_t refused;
    pv_counts counts;
    size_t tokens;
    size_t lengths[6];
} pv_outputs;

typedef struct { /* in parts of 10,000 */
    uint32_t refused;
    uint32_t share;
} pv_share_answer;

typedef struct {
    uint32_t refused;
    bool alike;
} pv_alike_answer;

typedef struct { /* a part of the caller's measures: m[start] .. m[start + length - 1] */
    size_t start;
    size_t length;
} pv_range;

typedef struct { /* a piece or a gap: first measure, one past the last, and which of the two it is */
    size_t start;
    size_t end;
    bool is_break;
} pv_segment;

typedef struct {
    uint32_t refused;
    size_t count;
} pv_segments_answer;

typedef struct {
    uint32_t refused;
    bool found;
    pv_segment segment;
} pv_nth_segment;

typedef struct { /* a token's class and length, or that the tokens have ended */
    bool ended;
    uint8_t class_number;
    uint32_t length;
} pv_view_token;

typedef struct {
    uint32_t refused;
    pv_view_token token;
} pv_nth_token_answer;

typedef struct { /* the level shown, 1 to 4, and the text's length */
    uint32_t refused;
    uint32_t level;
    size_t length;
} pv_label_written;

typedef struct { /* the first `length` bytes of the second text, or of the first */
    bool second;
    size_t length;
} pv_pair_part;

typedef struct { /* number of densities, place of the name's first byte in the record, and its length */
    uint32_t refused;
    size_t measures;
    size_t name_start;
    size_t name_length;
} pv_record_answer;

typedef struct { /* number of densities */
    uint32_t refused;
    size_t measures;
} pv_rows_answer;

typedef struct { /* bytes to print: the first `length` of them */
    uint8_t bytes[66048];
    size_t length;
} pv_sheet;

/* A number in base ten, with spaces before it where it has fewer digits than the width; at most 20 bytes. Questions 20, 4. Before
 * it had a width the call had three parameters: a program that was compiled against that must be compiled again. */
pv_written pv_push_u64(uint8_t *out, size_t out_length, uint64_t n, uint32_t width);

/* The class of a density, 0 to 4. */
uint32_t pv_categorize_measure_density(uint32_t density);

/* Active part: first to last stream measure, as a part of m; length 0 if there is none. */
pv_range pv_active_range(const uint32_t *m, size_t m_length);

/* Counts. The four run counts, sn_breaks, lead and tail of an accepted chart add up to m_length. Question 1. */
pv_counts_answer pv_compute_stream_counts(const uint32_t *m, size_t m_length);

/* The counts line for boards: the eight counts in the order of pv_counts, each at width 7, parted by one space, ended by 0A. It has
 * 64 bytes for every accepted chart. Questions 1, 4. */
pv_written pv_board_counts(const uint32_t *m, size_t m_length, uint8_t *out, size_t out_length);

/* 10,000 x s / (s + sn_breaks), rounded down, s the stream measures; at most 10,000. Questions 1, 7. */
pv_share_answer pv_share(const uint32_t *m, size_t m_length);

/* Have two charts the same standard detailed text? Question 1, of both. */
pv_alike_answer pv_alike(const uint32_t *a, size_t a_length, const uint32_t *b, size_t b_length);

/* Segments in chart order: pieces, and gaps of 2 or more. At most m_length of them. Questions 1, 3. */
pv_segments_answer pv_stream_sequences(const uint32_t *m, size_t m_length, pv_segment *out, size_t out_length);

/* Segment number k, from 0, if there is one. Question 1. */
pv_nth_segment pv_segment_at(const uint32_t *m, size_t m_length, size_t k);

/* Token number k, from 0, of the whole chart, breaks at both ends included; ended past the last. Question 1: a refused token is not
 * ended, and its class and length are 0, so look at the number first. To step through a chart, ask for token 0 of the measures that
 * are left, and move on by its length. */
pv_nth_token_answer pv_nth_token(const uint32_t *m, size_t m_length, size_t k);

/* One run as an SN text shows it. Questions 5, 4. A class above 4 is no stream class. */
pv_written pv_format_run_symbol(uint8_t *out, size_t out_length, uint32_t class_number, uint64_t length, bool star);

/* An SN text by its mode; at most 4 x m_length bytes. Questions 100, 1, 4. */
pv_written pv_generate_breakdown(const uint32_t *m, size_t m_length, uint8_t *out, size_t out_length, uint32_t mode);

/* A standard text by its level; at most 3 x m_length + 11 bytes. Questions 100, 1, 4. */
pv_written pv_stream_breakdown(const uint32_t *m, size_t m_length, uint8_t *out, size_t out_length, uint32_t level);

/* The three SN texts end to end: detailed, partial, simplified; at most 12 x m_length bytes. Questions 1, 4. */
pv_three_written pv_generate_breakdowns(const uint32_t *m, size_t m_length, uint8_t *out, size_t out_length);

/* The three standard texts end to end: detailed, partial, simple; at most 5 x m_length + 33 bytes. Questions 1, 4. */
pv_three_written pv_stream_breakdowns(const uint32_t *m, size_t m_length, uint8_t *out, size_t out_length);

/* The pass: counts, the active part's tokens in two arrays, and six texts end to end, SN detailed, partial, simplified, standard
 * detailed, partial, simple. Questions 1, 2, 4. It runs fastest where both token arrays have m_length places and the text array
 * has 17 x m_length + 33 bytes, which are always enough. */
pv_outputs pv_compute_stream_outputs(
    const uint32_t *m, size_t m_length, uint8_t *classes, size_t classes_length,
    uint32_t *lengths, size_t lengths_length, uint8_t *out, size_t out_length);

/* The first of the standard texts detailed, partial, simple, total that is no longer than the width. Questions 1, 6, 4. */
pv_label_written pv_label(const uint32_t *m, size_t m_length, uint8_t *out, size_t out_length, size_t width);

/* The standard detailed text of an SN detailed text; at most sn_length bytes, 11 for the empty text. Runs and breaks are parted by
 * one space; numbers have no leading zero, run lengths are from 1, breaks from 2; the first and last items are runs, and no two
 * breaks are neighbours. Neighbouring runs of one class had a gap of 1; between different classes it was 0 or 1, which cannot be
 * told. For question 18 an undecided gap counts as 0. Questions 18, 19, 4. */
pv_written pv_sn_to_standard(const uint8_t *sn, size_t sn_length, uint8_t *out, size_t out_length);

/* The first of two texts if it is no longer than the width, else the second if it is, else the empty beginning of the first. */
pv_pair_part pv_label_pair(
    const uint8_t *first, size_t first_length, const uint8_t *second, size_t second_length, size_t width);

/* A chart record: its densities, and where its name stands. Questions 8, 17, 9, 10, 11 field by field, then 1, 12. */
pv_record_answer pv_read_chart_record(
    const uint8_t *bytes, size_t bytes_length, uint32_t *densities, size_t densities_length);

/* Note rows: the density of each measure. A line ends at 0A. A row is a line of four bytes of "0", "1", "2", "3", "4" or "M" and
 * adds one to its measure if it holds "1", "2" or "4". The line "," ends a measure, the line ";" the last one, and nothing stands
 * after it. At most text_length / 2 densities, since each measure has a line of two bytes. Questions 14, 15, 16 line by line, then
 * 1, 12. */
pv_rows_answer pv_read_note_rows(const uint8_t *text, size_t text_length, uint32_t *densities, size_t densities_length);

/* What the program `sheet` prints for a chart record: name, the eight counts, the six texts of the pass and Total, a line each; or
 * the only line "refused N". Question 13 (at most 16,384 bytes), those of the record, of the pass and of Total. The call needs 288
 * KB of stack, and the answer has 66,056 bytes more, wherever it is put; c/run.sh runs it with both on a stack of 384 KB. */
pv_sheet pv_print_sheet(const uint8_t *bytes, size_t bytes_length);

#ifdef __cplusplus
}
#endif

#endif
