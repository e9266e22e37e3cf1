//! The paper's charts, through the functions with the original's names, their counts lines for boards, numbers, note rows, and SN
//! texts.

use crate::*;

/// Stretches (density, measures), counts in the original's order, lead and tail last, and the seven texts, Total last.
struct Chart {
    stretches: &'static [(usize, usize)],
    counts: [u32; 8],
    texts: [&'static str; 7],
}

const NONE: &str = "No Streams!";

#[rustfmt::skip]
const CHARTS: [Chart; 13] = [
    Chart { stretches: &[], counts: [0; 8], texts: ["", "", "", NONE, NONE, NONE, NONE] },
    Chart { stretches: &[(15, 1)], counts: [0, 0, 0, 0, 0, 0, 1, 0], texts: ["", "", "", NONE, NONE, NONE, NONE] },
    Chart { stretches: &[(16, 1)], counts: [1, 0, 0, 0, 0, 0, 0, 0], texts: ["1", "1", "1", "1", "1", "1", "1 Total"] },
    Chart { stretches: &[(19, 1), (20, 1)], counts: [1, 1, 0, 0, 0, 0, 0, 0], texts: ["1 ~1~", "1 ~1~", "1 ~1~", "2", "2", "2", "2 Total"] },
    Chart { stretches: &[(16, 1), (0, 1), (16, 1)], counts: [2, 0, 0, 0, 0, 1, 0, 0], texts: ["1 1", "3*", "3*", "1-1", "1-1", "3*", "2 Total"] },
    Chart { stretches: &[(16, 1), (0, 4), (16, 1)], counts: [2, 0, 0, 0, 4, 4, 0, 0], texts: ["1 (4) 1", "1 - 1", "6*", "1 (4) 1", "1-1", "1-1", "2 Total"] },
    Chart { stretches: &[(16, 1), (0, 5), (16, 1)], counts: [2, 0, 0, 0, 5, 5, 0, 0],
        texts: ["1 (5) 1", "1 / 1", "1 / 1", "1 (5) 1", "1/1", "1/1", "2 Total"] },
    Chart { stretches: &[(16, 1), (0, 32), (16, 1)], counts: [2, 0, 0, 0, 32, 32, 0, 0],
        texts: ["1 (32) 1", "1 / 1", "1 / 1", "1 (32) 1", "1 | 1", "1 | 1", "2 Total"] },
    Chart { stretches: &[(16, 1), (0, 33), (16, 1)], counts: [2, 0, 0, 0, 33, 33, 0, 0],
        texts: ["1 (33) 1", "1 | 1", "1 | 1", "1 (33) 1", "1 | 1", "1 | 1", "2 Total"] },
    Chart { stretches: &[(32, 1), (0, 2), (16, 1)], counts: [1, 0, 0, 1, 2, 2, 0, 0],
        texts: ["=1= (2) 1", "=1= - 1", "=3=* 1", "1 (2) 1", "1-1", "1-1", "2 Total"] },
    Chart { stretches: &[(0, 2), (16, 1)], counts: [1, 0, 0, 0, 2, 0, 2, 0], texts: ["1", "1", "1", "1", "1", "1", "1 Total"] },
    Chart { stretches: &[(0, 1), (16, 1)], counts: [1, 0, 0, 0, 0, 0, 1, 0], texts: ["1", "1", "1", "1", "1", "1", "1 Total"] },
    Chart { stretches: &[(16, 2), (0, 1), (20, 2), (0, 3), (16, 1)], counts: [3, 2, 0, 0, 3, 4, 0, 0],
        texts: ["2 ~2~ (3) 1", "2 ~2~ - 1", "2 ~5~* 1", "2-2 (3) 1", "2-2-1", "5*-1", "5 Total"] },
];

fn measures(chart: &Chart) -> Vec<usize> {
    let stretches = chart.stretches.iter();
    stretches
        .flat_map(|&(density, count)| vec![density; count])
        .collect()
}

fn counts(numbers: [u32; 8]) -> StreamCounts {
    let [run16_streams, run20_streams, run24_streams, run32_streams, ..] = numbers;
    let [.., total_breaks, sn_breaks, lead, tail] = numbers;
    StreamCounts {
        run16_streams,
        run20_streams,
        run24_streams,
        run32_streams,
        total_breaks,
        sn_breaks,
        lead,
        tail,
    }
}

fn owned(texts: &[&str]) -> Texts {
    (texts[0].into(), texts[1].into(), texts[2].into())
}

#[test]
fn texts_and_counts_of_the_paper() {
    let modes = [
        BreakdownMode::Detailed,
        BreakdownMode::Partial,
        BreakdownMode::Simplified,
    ];
    let levels = [
        StreamBreakdownLevel::Detailed,
        StreamBreakdownLevel::Partial,
        StreamBreakdownLevel::Simple,
        StreamBreakdownLevel::Total,
    ];
    for chart in &CHARTS {
        let m = measures(chart);
        let (sn, standard) = (owned(&chart.texts[..3]), owned(&chart.texts[3..6]));
        let expected = counts(chart.counts);
        assert_eq!(compute_stream_counts(&m), Ok(expected));
        assert_eq!(generate_breakdowns(&m), Ok(sn.clone()));
        assert_eq!(stream_breakdowns(&m), Ok(standard.clone()));
        assert_eq!(compute_stream_outputs(&m), Ok((expected, sn, standard)));
        for (mode, text) in modes.into_iter().zip(chart.texts) {
            assert_eq!(generate_breakdown(&m, mode).as_deref(), Ok(text));
        }
        for (level, text) in levels.into_iter().zip(&chart.texts[3..]) {
            assert_eq!(stream_breakdown(&m, level).as_deref(), Ok(*text));
        }
    }
}

/// Breaks at a chart's ends are in `lead` and `tail`, or all in `lead`, and all measures add up.
#[test]
fn measures_before_and_after_the_active_part() {
    for chart in &CHARTS {
        for (before, behind) in [(0, 0), (1, 0), (0, 1), (2, 0), (0, 2), (3, 200), (200, 3)] {
            let m = [vec![15; before], measures(chart), vec![15; behind]].concat();
            let c = compute_stream_counts(&m).unwrap();
            let own = counts(chart.counts);
            let (lead, tail) = match chart.texts[0] {
                "" => (m.len(), 0),
                _ => (before + own.lead as usize, behind + own.tail as usize),
            };
            assert_eq!((c.lead as usize, c.tail as usize), (lead, tail));
            let runs = c.run16_streams + c.run20_streams + c.run24_streams + c.run32_streams;
            let sum = runs + c.sn_breaks + c.lead + c.tail;
            assert_eq!(sum as usize, m.len());
            assert_eq!(compute_stream_outputs(&m).unwrap().0, c);
        }
    }
    let quiet = vec![15; MOST_MEASURES];
    let due = counts([0, 0, 0, 0, 0, 0, MOST_MEASURES as u32, 0]);
    assert_eq!(compute_stream_counts(&quiet), Ok(due));
}

#[test]
fn tokens_and_segments_of_case_12() {
    let m = measures(&CHARTS[12]);
    let mut tokens = Vec::new();
    compute_stream_outputs_with_scratch(&m, &mut tokens).unwrap();
    let due = [
        Token::Run(RunDensity::Run16, 2),
        Token::Break(1),
        Token::Run(RunDensity::Run20, 2),
        Token::Break(3),
        Token::Run(RunDensity::Run16, 1),
    ];
    assert_eq!(tokens, due);
    let segment = |start, end, is_break| StreamSegment {
        start,
        end,
        is_break,
    };
    let segments = vec![
        segment(0, 2, false),
        segment(3, 5, false),
        segment(5, 8, true),
        segment(8, 9, false),
    ];
    assert_eq!(stream_sequences(&m), Ok(segments));
    assert_eq!(lent::share(&densities(&m)), Ok(5555));
}

#[test]
fn densities_above_a_u32_keep_their_class() {
    let wide = u32::MAX as usize + 1;
    assert_eq!(categorize_measure_density(wide), RunDensity::Run32);
    assert_eq!(generate_breakdowns(&[wide]).unwrap().0, "=1=");
    assert_eq!(
        compute_stream_counts(&[usize::MAX]).unwrap().run32_streams,
        1
    );
}

#[test]
fn refusals_carry_the_questions_number() {
    let many = vec![16; MOST_MEASURES + 1];
    let mut tokens = vec![Token::Break(7)];
    assert_eq!(
        compute_stream_outputs_with_scratch(&many, &mut tokens),
        Err(Refused(1))
    );
    assert_eq!(tokens, [Token::Break(7)]);
    assert_eq!(compute_stream_counts(&many), Err(Refused(1)));
    assert_eq!(board_counts(&many), Err(Refused(1)));
    assert_eq!(stream_sequences(&many), Err(Refused(1)));
    assert_eq!(stream_breakdowns(&many), Err(Refused(1)));
    assert_eq!(
        format_run_symbol(RunDensity::Break, 3, false),
        Err(Refused(5))
    );
    assert_eq!(lent::share(&[0, 15]), Err(Refused(7)));
    assert_eq!(lent::label(&[16], 0, &mut [0; 9]), Err(Refused(6)));
    assert_eq!(lent::push_u64(&mut [0; 2], 100, 0), Err(Refused(4)));
    let number = Refused(5).to_string();
    assert_eq!(number, "refused 5: a stream class for a run symbol?");
}

#[test]
fn a_refused_token_is_not_ended() {
    let many = vec![16; MOST_MEASURES + 1];
    for k in [0, 1, usize::MAX] {
        let ffi::NthToken { refused, token } = ffi::nth_token(&many, k);
        assert_eq!((refused, token.ended), (1, false));
        assert_eq!((token.class, token.length), (0, 0));
        assert_eq!(lent::nth_token(&many, k), Err(Refused(1)));
    }
    assert!(lent::stream_tokens(&many).is_err());
    assert_eq!(lent::nth_token(&many[..MOST_MEASURES], 1), Ok(None));
}

#[test]
fn numbers_and_run_symbols() {
    let mut out = String::from("n ");
    push_u64(&mut out, u64::MAX);
    assert_eq!(out, "n 18446744073709551615");
    let symbol = format_run_symbol(RunDensity::Run24, usize::MAX, true);
    assert_eq!(symbol.as_deref(), Ok("\\18446744073709551615\\*"));
}

#[test]
fn numbers_at_a_width() {
    for (n, width, due) in [
        (0, 0, "0"),
        (0, 1, "0"),
        (0, 7, "      0"),
        (1_048_576, 7, "1048576"),
        (10_000_000, 7, "10000000"),
        (99, 20, "                  99"),
        (u64::MAX, 20, "18446744073709551615"),
    ] {
        let mut out = String::from("n ");
        assert_eq!(push_u64_padded(&mut out, n, width), Ok(()));
        assert_eq!(out, format!("n {due}"));
        let mut short = vec![7; due.len() - 1];
        let refused = lent::push_u64(&mut short, n, width);
        assert_eq!((refused, short), (Err(Refused(4)), vec![7; due.len() - 1]));
    }
    let mut longer = [7; 6];
    assert_eq!(lent::push_u64(&mut longer, 12, 4), Ok(4));
    assert_eq!(&longer, b"  12\x07\x07");
}

#[test]
fn widths_above_20() {
    for width in [21, 22, u32::MAX] {
        let mut out = String::from("n ");
        assert_eq!(push_u64_padded(&mut out, 7, width), Err(Refused(20)));
        assert_eq!(out, "n ");
        for room in [0, 1, 20, 30] {
            let mut out = vec![7; room];
            let refused = lent::push_u64(&mut out, u64::MAX, width);
            assert_eq!((refused, out), (Err(Refused(20)), vec![7; room]));
        }
    }
    let words = Refused(20).to_string();
    assert_eq!(words, "refused 20: a width of at most 20?");
}

/// The counts line for boards, from the counts in their order.
fn board_line(numbers: [u32; 8]) -> String {
    numbers.map(|n| format!("{n:>7}")).join(" ") + "\n"
}

#[test]
fn counts_lines_for_boards() {
    for chart in &CHARTS {
        let due = board_line(chart.counts);
        assert_eq!(board_counts(&measures(chart)), Ok(due));
    }
    let due = "      3       2       0       0       3       4       0       0\n";
    let m = densities(&measures(&CHARTS[12]));
    let mut longer = [7; 66];
    assert_eq!(lent::board_counts(&m, &mut longer), Ok(64));
    assert_eq!(longer, *[due.as_bytes(), &[7; 2]].concat());
    let mut short = [7; 63];
    let refused = lent::board_counts(&m, &mut short);
    assert_eq!((refused, short), (Err(Refused(4)), [7; 63]));
}

#[test]
fn counts_lines_at_the_domains_edge() {
    let streams = MOST_MEASURES - 5;
    let m = [vec![0; 2], vec![32; streams], vec![0; 3]].concat();
    let due = board_line([0, 0, 0, streams as u32, 5, 0, 2, 3]);
    assert_eq!(board_counts(&m), Ok(due));
    let many = vec![16; MOST_MEASURES + 1];
    for room in [0, 63, 64] {
        let mut out = vec![7; room];
        let refused = lent::board_counts(&many, &mut out);
        assert_eq!((refused, out), (Err(Refused(1)), vec![7; room]));
    }
}

#[test]
fn record_view_and_label_of_case_12() {
    let record = [1, 0, 1, 0x41, 2, 0, 9, 16, 16, 0, 20, 20, 0, 0, 0, 16];
    let mut m = [7; 10];
    let read = lent::ChartRecord {
        measures: 9,
        name_start: 3,
        name_length: 1,
    };
    assert_eq!(lent::read_chart_record(&record, &mut m), Ok(read));
    assert_eq!(m, [16, 16, 0, 20, 20, 0, 0, 0, 16, 7]);
    assert!(print_sheet(&record).starts_with(b"A\n3 2 0 0 3 4 0 0\n2 ~2~ (3) 1\n"));
    assert_eq!(print_sheet(&record[..2]), b"refused 8\n");
    assert_eq!(print_sheet(&record[..3]), b"refused 17\n");
    let m = &m[..9];
    assert_eq!(lent::active_range(m), m);
    assert_eq!(lent::stream_tokens(m).unwrap().count(), 5);
    let mut out = [0; 16];
    assert_eq!(
        lent::label(m, 5, &mut out),
        Ok((StreamBreakdownLevel::Partial, 5))
    );
    assert_eq!(&out[..5], b"2-2-1");
    assert_eq!(lent::label_pair(b"first", b"two", 4), b"two");
}

#[test]
fn the_longest_records() {
    let mut record = vec![1, 0, 1, 0x41, 2, 0x3f, 0xf9];
    record.extend((0..0x3ff9).map(|i| if i % 2 == 0 { 16 } else { 0 }));
    assert_eq!(record.len(), 16384);
    let sheets = move || {
        let sheet = print_sheet(&record);
        record.push(0);
        (sheet, print_sheet(&record))
    };
    let thread = std::thread::Builder::new().stack_size(384 * 1024);
    let (sheet, refused) = thread.spawn(sheets).unwrap().join().unwrap();
    assert!(sheet.starts_with(b"A\n8189 0 0 0 0 8188 0 0\n1 1 1 "));
    assert_eq!(refused, b"refused 13\n");
    let words = Refused(13).to_string();
    assert_eq!(words, "refused 13: at most 16,384 bytes of input?");
}

#[test]
fn cut_records() {
    for tag in [1, 2, 3] {
        for before in [&[][..], &[1, 0, 1, 0x41]] {
            let cut = [before, &[tag, 0, 2, 0x42]].concat();
            for (size, number) in [(1, 8), (2, 8), (3, 17), (4, 17)] {
                let record = &cut[..before.len() + size];
                let mut densities = [7; 5];
                let refused = lent::read_chart_record(record, &mut densities);
                assert_eq!((refused, densities), (Err(Refused(number)), [7; 5]));
                let printed = format!("refused {number}\n");
                assert_eq!(print_sheet(record), printed.as_bytes());
            }
        }
    }
    let words = [
        "refused 8: three head bytes present?",
        "refused 17: the whole payload present?",
    ];
    assert_eq!([8, 17].map(|n| Refused(n).to_string()), words);
}

#[test]
fn note_rows_of_case_12() {
    let rows = include_bytes!("../../samples/case12.rows");
    let chart = &CHARTS[12];
    let m = read_note_rows(rows).unwrap();
    assert_eq!(m, measures(chart));
    let (sn, standard) = (owned(&chart.texts[..3]), owned(&chart.texts[3..6]));
    let expected = counts(chart.counts);
    assert_eq!(compute_stream_outputs(&m), Ok((expected, sn, standard)));
    let mut longer = [7; 10];
    assert_eq!(lent::read_note_rows(rows, &mut longer), Ok(9));
    assert_eq!(longer, [16, 16, 0, 20, 20, 0, 0, 0, 16, 7]);
    let mut short = [7; 8];
    let refused = lent::read_note_rows(rows, &mut short);
    assert_eq!((refused, short), (Err(Refused(12)), [7; 8]));
}

#[test]
fn refused_note_rows() {
    let many = "0000\n".repeat(193) + ";\n";
    let texts = [
        ("1000\r\n;\n", 14),
        (&many[..964], 14),
        (&many, 15),
        ("", 16),
        (";\n;\n", 16),
    ];
    for (text, number) in texts {
        let mut densities = [7; 5];
        let refused = lent::read_note_rows(text.as_bytes(), &mut densities);
        assert_eq!((refused, densities), (Err(Refused(number)), [7; 5]));
        assert_eq!(read_note_rows(text.as_bytes()), Err(Refused(number)));
    }
    let words = [
        "refused 14: a row, \",\" or \";\", each ended by 0A?",
        "refused 15: at most 192 rows in a measure?",
        "refused 16: the line \";\", and nothing after it?",
    ];
    assert_eq!([14, 15, 16].map(|n| Refused(n).to_string()), words);
}

#[test]
fn note_rows_at_the_domains_edge() {
    let rows = ",\n".repeat(MOST_MEASURES) + "1000\n0040\n;\n";
    assert_eq!(read_note_rows(rows.as_bytes()), Err(Refused(1)));
    for places in [0, MOST_MEASURES, MOST_MEASURES + 1] {
        let mut densities = vec![7; places];
        let refused = lent::read_note_rows(rows.as_bytes(), &mut densities);
        assert_eq!(refused, Err(Refused(1)));
        assert!(densities.iter().all(|&d| d == 7));
    }
    let m = read_note_rows(&rows.as_bytes()[2..]).unwrap();
    assert_eq!((m.len(), m.last()), (MOST_MEASURES, Some(&2)));
    assert!(m.iter().rev().skip(1).all(|&d| d == 0));
}

#[test]
fn sn_texts_become_standard_texts() {
    for (i, chart) in CHARTS.iter().enumerate() {
        // Cases 4 and 12 have neighbouring runs of different classes.
        let due = if i == 3 || i == 12 {
            Err(Refused(19))
        } else {
            Ok(chart.texts[3].to_string())
        };
        assert_eq!(sn_to_standard(chart.texts[0]), due);
    }
    let sn = "~12~ ~3~ (33) \\4\\ (2) =6=";
    assert_eq!(sn_to_standard(sn).as_deref(), Ok("12-3 (33) 4 (2) 6"));
    let mut longer = [7; 19];
    assert_eq!(lent::sn_to_standard(sn.as_bytes(), &mut longer), Ok(17));
    assert_eq!(&longer, b"12-3 (33) 4 (2) 6\x07\x07");
    let mut short = [7; 16];
    let refused = lent::sn_to_standard(sn.as_bytes(), &mut short);
    assert_eq!((refused, short), (Err(Refused(4)), [7; 16]));
}

#[test]
fn refused_sn_texts() {
    let texts = [
        ("01", 18),
        ("1 (1) 1", 18),
        ("1 (2)", 18),
        ("1  1", 18),
        ("3*", 18),
        ("1048576 1", 18),
        ("1048575 ~1~", 19),
        ("1 ~1~", 19),
    ];
    for (sn, number) in texts {
        let mut out = [7; 20];
        let refused = lent::sn_to_standard(sn.as_bytes(), &mut out);
        assert_eq!((refused, out), (Err(Refused(number)), [7; 20]));
        assert_eq!(sn_to_standard(sn), Err(Refused(number)));
    }
    let words = [
        "refused 18: runs and breaks by the rules, with at most 1,048,576 measures?",
        "refused 19: is each gap decided?",
    ];
    assert_eq!([18, 19].map(|n| Refused(n).to_string()), words);
}
