//! The calls over lent slices: no allocation. What is written stands at a slice's start, and what lies after it stays as it
//! was; a refused call writes nothing.

use crate::ffi;
use crate::types::{
    BreakdownMode, Refused, RunDensity, StreamBreakdownLevel, StreamCounts, StreamSegment, Token,
};

/// What the pass answers: counts, number of tokens, and the length of each of the six texts.
#[derive(Debug, Clone, Copy, PartialEq, Eq)]
pub struct Outputs {
    pub counts: StreamCounts,
    pub tokens: usize,
    pub lengths: [usize; 6],
}

/// A chart record: number of densities, place of the name's first byte, and its length.
#[derive(Debug, Clone, Copy, PartialEq, Eq)]
pub struct ChartRecord {
    pub measures: usize,
    pub name_start: usize,
    pub name_length: usize,
}

/// A number in base ten, with spaces before it where it has fewer digits than the width; at most 20 bytes. Questions 20, 4. The
/// length is answered, here and for every text.
pub fn push_u64(out: &mut [u8], n: u64, width: u32) -> Result<usize, Refused> {
    let r = ffi::push_u64(out, n, width);
    Refused::unless(r.refused, r.length)
}

/// The class of a density.
#[must_use]
pub fn categorize_measure_density(density: u32) -> RunDensity {
    RunDensity::of(ffi::categorize_measure_density(density))
}

/// First to last stream measure.
#[must_use]
pub fn active_range(m: &[u32]) -> &[u32] {
    let r = ffi::active_range(m);
    m.get(r.start..)
        .and_then(|rest| rest.get(..r.length))
        .unwrap_or_default()
}

/// Counts. Question 1.
pub fn compute_stream_counts(m: &[u32]) -> Result<StreamCounts, Refused> {
    let r = ffi::compute_stream_counts(m);
    Refused::unless(r.refused, r.counts)
}

/// The counts line for boards: the eight counts, each at width 7, parted by one space, ended by 0A; 64 bytes. Questions 1, 4.
pub fn board_counts(m: &[u32], out: &mut [u8]) -> Result<usize, Refused> {
    let r = ffi::board_counts(m, out);
    Refused::unless(r.refused, r.length)
}

/// Share: 10,000 × s divided by (s + sn_breaks), rounded down, s the stream measures; at most 10,000. Questions 1, 7.
pub fn share(m: &[u32]) -> Result<u32, Refused> {
    let r = ffi::share(m);
    Refused::unless(r.refused, r.share)
}

/// Have two charts the same standard detailed text? Question 1, of both.
pub fn alike(a: &[u32], b: &[u32]) -> Result<bool, Refused> {
    let r = ffi::alike(a, b);
    Refused::unless(r.refused, r.alike)
}

/// Pieces, and gaps of 2 or more; their number is answered, at most that of the measures. Questions 1, 3.
pub fn stream_sequences(m: &[u32], out: &mut [StreamSegment]) -> Result<usize, Refused> {
    let r = ffi::stream_sequences(m, out);
    Refused::unless(r.refused, r.count)
}

/// Segment number `k`, from 0. Question 1.
pub fn segment_at(m: &[u32], k: usize) -> Result<Option<StreamSegment>, Refused> {
    let r = ffi::segment_at(m, k);
    Refused::unless(r.refused, r.found.then_some(r.segment))
}

/// Token number `k`, from 0, of the whole chart, breaks at both ends included. Question 1.
pub fn nth_token(m: &[u32], k: usize) -> Result<Option<Token>, Refused> {
    let r = ffi::nth_token(m, k);
    let token = Token::of(r.token.class, r.token.length);
    Refused::unless(r.refused, (!r.token.ended).then_some(token))
}

/// Steps through the tokens of a chart.
#[derive(Debug, Clone)]
pub struct TokenView<'a> {
    measures: &'a [u32],
}

/// Opens a view of a chart's tokens. Question 1.
pub fn stream_tokens(measures: &[u32]) -> Result<TokenView<'_>, Refused> {
    nth_token(measures, 0).map(|_| TokenView { measures })
}

impl Iterator for TokenView<'_> {
    type Item = Token;

    fn next(&mut self) -> Option<Token> {
        let token = nth_token(self.measures, 0).ok().flatten()?;
        let (Token::Run(_, length) | Token::Break(length)) = token;
        self.measures = self.measures.get(length..).unwrap_or_default();
        Some(token)
    }
}

/// One run as an SN text shows it. Questions 5, 4.
pub fn format_run_symbol(
    class: RunDensity,
    length: u64,
    star: bool,
    out: &mut [u8],
) -> Result<usize, Refused> {
    let r = ffi::format_run_symbol(out, class.number(), length, star);
    Refused::unless(r.refused, r.length)
}

/// An SN text; at most 4 bytes a measure. Questions 1, 4.
pub fn generate_breakdown(
    m: &[u32],
    mode: BreakdownMode,
    out: &mut [u8],
) -> Result<usize, Refused> {
    let r = ffi::generate_breakdown(m, out, mode.number());
    Refused::unless(r.refused, r.length)
}

/// A standard text; at most 3 bytes a measure and 11 more. Questions 1, 4.
pub fn stream_breakdown(
    m: &[u32],
    level: StreamBreakdownLevel,
    out: &mut [u8],
) -> Result<usize, Refused> {
    let r = ffi::stream_breakdown(m, out, level.number());
    Refused::unless(r.refused, r.length)
}

/// The three SN texts end to end; at most 12 bytes a measure. Questions 1, 4.
pub fn generate_breakdowns(m: &[u32], out: &mut [u8]) -> Result<[usize; 3], Refused> {
    let r = ffi::generate_breakdowns(m, out);
    Refused::unless(r.refused, r.lengths)
}

/// Standard detailed, partial and simple end to end; at most 5 bytes a measure and 33 more. Questions 1, 4.
pub fn stream_breakdowns(m: &[u32], out: &mut [u8]) -> Result<[usize; 3], Refused> {
    let r = ffi::stream_breakdowns(m, out);
    Refused::unless(r.refused, r.lengths)
}

/// The pass: counts, the active part's tokens by class and length, and six texts end to end. Questions 1, 2, 4. A place in
/// both token slices and 17 bytes for each measure, and 33 bytes more, are always enough.
pub fn compute_stream_outputs(
    m: &[u32],
    classes: &mut [u8],
    lengths: &mut [u32],
    out: &mut [u8],
) -> Result<Outputs, Refused> {
    let r = ffi::compute_stream_outputs(m, classes, lengths, out);
    let outputs = Outputs {
        counts: r.counts,
        tokens: r.tokens,
        lengths: r.lengths,
    };
    Refused::unless(r.refused, outputs)
}

/// The first standard text no longer than the width, by its level and length. Questions 1, 6, 4.
pub fn label(
    m: &[u32],
    width: usize,
    out: &mut [u8],
) -> Result<(StreamBreakdownLevel, usize), Refused> {
    let r = ffi::label(m, out, width);
    Refused::unless(r.refused, (StreamBreakdownLevel::of(r.level), r.length))
}

/// The first text if it fits the width, else the second if it fits, else the empty beginning of the first.
#[must_use]
pub fn label_pair<'a>(first: &'a [u8], second: &'a [u8], width: usize) -> &'a [u8] {
    let r = ffi::label_pair(first, second, width);
    let text = if r.second { second } else { first };
    text.get(..r.length).unwrap_or_default()
}

/// The standard detailed text of an SN detailed text; at most as long, 11 bytes for the empty text. Questions 18, 19, 4.
pub fn sn_to_standard(sn: &[u8], out: &mut [u8]) -> Result<usize, Refused> {
    let r = ffi::sn_to_standard(sn, out);
    Refused::unless(r.refused, r.length)
}

/// The densities of a chart record. Questions 8, 17, 9, 10, 11 field by field, then 1, 12.
pub fn read_chart_record(record: &[u8], densities: &mut [u32]) -> Result<ChartRecord, Refused> {
    let r = ffi::read_chart_record(record, densities);
    let read = ChartRecord {
        measures: r.measures,
        name_start: r.name_start,
        name_length: r.name_length,
    };
    Refused::unless(r.refused, read)
}

/// The densities of note rows; their number is answered, at most one for every two bytes. Questions 14 to 16 line by line, then
/// 1, 12.
pub fn read_note_rows(text: &[u8], densities: &mut [u32]) -> Result<usize, Refused> {
    let r = ffi::read_note_rows(text, densities);
    Refused::unless(r.refused, r.measures)
}
