/* Sizes and offsets of the answers as the library lays them out on x86-64; a difference does not compile. */
#include "puvolamie.h"

#define SAME(name, a, b) typedef char name[(a) == (b) ? 1 : -1]
#define SIZE(type, n) SAME(size_of_##type, sizeof(type), n)
#define AT(type, field, n) SAME(place_of_##type##_##field, offsetof(type, field), n)

SIZE(bool, 1);
SIZE(size_t, 8);

SIZE(pv_written, 16);
AT(pv_written, refused, 0);
AT(pv_written, length, 8);

SIZE(pv_three_written, 32);
AT(pv_three_written, refused, 0);
AT(pv_three_written, lengths, 8);

SIZE(pv_counts, 32);
AT(pv_counts, run16_streams, 0);
AT(pv_counts, run20_streams, 4);
AT(pv_counts, run24_streams, 8);
AT(pv_counts, run32_streams, 12);
AT(pv_counts, total_breaks, 16);
AT(pv_counts, sn_breaks, 20);
AT(pv_counts, lead, 24);
AT(pv_counts, tail, 28);

SIZE(pv_counts_answer, 36);
AT(pv_counts_answer, refused, 0);
AT(pv_counts_answer, counts, 4);

SIZE(pv_outputs, 96);
AT(pv_outputs, refused, 0);
AT(pv_outputs, counts, 4);
AT(pv_outputs, tokens, 40);
AT(pv_outputs, lengths, 48);

SIZE(pv_share_answer, 8);
AT(pv_share_answer, refused, 0);
AT(pv_share_answer, share, 4);

SIZE(pv_alike_answer, 8);
AT(pv_alike_answer, refused, 0);
AT(pv_alike_answer, alike, 4);

SIZE(pv_range, 16);
AT(pv_range, start, 0);
AT(pv_range, length, 8);

SIZE(pv_segment, 24);
AT(pv_segment, start, 0);
AT(pv_segment, end, 8);
AT(pv_segment, is_break, 16);

SIZE(pv_segments_answer, 16);
AT(pv_segments_answer, refused, 0);
AT(pv_segments_answer, count, 8);

SIZE(pv_nth_segment, 32);
AT(pv_nth_segment, refused, 0);
AT(pv_nth_segment, found, 4);
AT(pv_nth_segment, segment, 8);

SIZE(pv_view_token, 8);
AT(pv_view_token, ended, 0);
AT(pv_view_token, class_number, 1);
AT(pv_view_token, length, 4);

SIZE(pv_nth_token_answer, 12);
AT(pv_nth_token_answer, refused, 0);
AT(pv_nth_token_answer, token, 4);

SIZE(pv_label_written, 16);
AT(pv_label_written, refused, 0);
AT(pv_label_written, level, 4);
AT(pv_label_written, length, 8);

SIZE(pv_pair_part, 16);
AT(pv_pair_part, second, 0);
AT(pv_pair_part, length, 8);

SIZE(pv_record_answer, 32);
AT(pv_record_answer, refused, 0);
AT(pv_record_answer, measures, 8);
AT(pv_record_answer, name_start, 16);
AT(pv_record_answer, name_length, 24);

SIZE(pv_rows_answer, 16);
AT(pv_rows_answer, refused, 0);
AT(pv_rows_answer, measures, 8);

SIZE(pv_sheet, 66056);
AT(pv_sheet, bytes, 0);
AT(pv_sheet, length, 66048);
