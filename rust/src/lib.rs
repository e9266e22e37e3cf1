//! Stream breakdowns of dance game charts, by proved calls: the functions and types of `rssp-core`'s `streams` but for
//! `visit_stream_sequences`, and `push_u64` of its `math`, over the static library `puvolamie_c`. The original lacks `lead` and
//! `tail` in the counts, numbers at a width, the counts line for boards, the converter from SN to standard detailed text, the reader
//! of note rows, and what the program `sheet` prints.
//!
//! The functions here allocate their answers. Those of [`lent`] write into slices that the caller lends; only there are the active
//! part, share, alike, single segments and tokens, labels and chart records.
//!
//! A refused call gives [`Refused`] with the number of the first question that was answered with no. What is refused here:
//!
//! | number | what |
//! |---|---|
//! | 1 | a chart of more than 1,048,576 measures |
//! | 5 | a run symbol for a break |
//! | 14 | note rows: a line that is no row, `,` or `;`, or lacks its 0A |
//! | 15 | note rows: a 193rd row in a measure |
//! | 16 | note rows: a missing line `;`, or bytes after it |
//! | 18 | an SN text outside the rules, or of more than 1,048,576 measures |
//! | 19 | an SN text with a gap that nobody can tell |
//! | 20 | a width above 20 |
//!
//! Nothing else is, and nothing panics. [`lent`] refuses all of these too, and besides:
//!
//! | number | what |
//! |---|---|
//! | 2 | a token slice with fewer places than there are tokens |
//! | 3 | a slice with fewer places than there are segments |
//! | 4 | a text slice that is shorter than the text due |
//! | 6 | a width that no level of a label fits |
//! | 7 | share of a chart without a stream measure |
//! | 8 | chart record: a field cut in its three head bytes |
//! | 17 | chart record: a field cut in its payload |
//! | 9 | chart record: a tag other than 01 and 02 |
//! | 10 | chart record: a first field that is no name, or a later one that is; an empty record |
//! | 11 | chart record: a name that is not 1 to 64 bytes from 20 to 7E |
//! | 12 | a slice with fewer places than there are densities |
//!
//! [`push_u64`] and [`categorize_measure_density`] take whatever they are given, as in the original. So does [`print_sheet`], which
//! gives bytes: of a record that is refused the line `refused N`, with 13 where it has more than 16,384 bytes.

#![deny(unsafe_code)]

#[allow(unsafe_code)]
mod ffi;
pub mod lent;
#[cfg(test)]
mod tests;
mod types;

pub use types::{
    BreakdownMode, Refused, RunDensity, StreamBreakdownLevel, StreamCounts, StreamSegment, Token,
    MOST_MEASURES,
};

/// Three texts: detailed, partial, simplified (or simple).
pub type Texts = (String, String, String);

/// The densities as the library takes them. One above `u32::MAX` becomes that, which has the same class; measures past the
/// first that is too many are left out, and the chart is refused all the same.
fn densities(measures: &[usize]) -> Vec<u32> {
    let most = measures.iter().take(MOST_MEASURES + 1);
    most.map(|&d| u32::try_from(d).unwrap_or(u32::MAX))
        .collect()
}

/// All texts consist of bytes below 80 in base sixteen, each a character of its own.
fn string(bytes: &[u8]) -> String {
    String::from_utf8_lossy(bytes).into_owned()
}

/// The text that `write` writes into `room` bytes.
fn text(
    room: usize,
    write: impl FnOnce(&mut [u8]) -> Result<usize, Refused>,
) -> Result<String, Refused> {
    let mut out = vec![0; room];
    let length = write(&mut out)?;
    out.truncate(length);
    Ok(string(&out))
}

/// Three texts that stand end to end, and what follows them.
fn three<'a>(bytes: &'a [u8], lengths: &[usize]) -> (Texts, &'a [u8]) {
    let mut rest = bytes;
    let mut next = |i: usize| {
        let length = lengths.get(i).copied().unwrap_or(0).min(rest.len());
        let (text, after) = rest.split_at(length);
        rest = after;
        string(text)
    };
    let texts = (next(0), next(1), next(2));
    (texts, rest)
}

/// Puts `n` in base ten at the end of `out`. Nothing is refused.
pub fn push_u64(out: &mut String, n: u64) {
    // Every number is accepted at width 0.
    let _ = push_u64_padded(out, n, 0);
}

/// The same, with spaces before `n` where it has fewer digits than the width. A width above 20 is refused by 20, and `out`
/// stays as it was.
pub fn push_u64_padded(out: &mut String, n: u64, width: u32) -> Result<(), Refused> {
    let mut bytes = [0; 20];
    let length = lent::push_u64(&mut bytes, n, width)?;
    out.extend(bytes.iter().take(length).map(|&b| char::from(b)));
    Ok(())
}

/// The class of a density. Nothing is refused.
#[must_use]
pub fn categorize_measure_density(d: usize) -> RunDensity {
    lent::categorize_measure_density(u32::try_from(d).unwrap_or(u32::MAX))
}

/// Pieces, and gaps of 2 or more, in chart order; none of a chart without a stream measure. Question 1.
pub fn stream_sequences(measures: &[usize]) -> Result<Vec<StreamSegment>, Refused> {
    let m = densities(measures);
    let mut out = vec![StreamSegment::default(); m.len()];
    let count = lent::stream_sequences(&m, &mut out)?;
    out.truncate(count);
    Ok(out)
}

/// Counts. Question 1.
pub fn compute_stream_counts(measures: &[usize]) -> Result<StreamCounts, Refused> {
    lent::compute_stream_counts(&densities(measures))
}

/// The counts line for boards: the eight counts, each at width 7, parted by one space, ended by 0A. Question 1.
pub fn board_counts(measures: &[usize]) -> Result<String, Refused> {
    text(64, |out| lent::board_counts(&densities(measures), out))
}

/// Counts, the SN texts (detailed, partial, simplified) and the standard texts (detailed, partial, simple). Question 1.
pub fn compute_stream_outputs(measures: &[usize]) -> Result<(StreamCounts, Texts, Texts), Refused> {
    compute_stream_outputs_with_scratch(measures, &mut Vec::new())
}

/// The same, with the active part's tokens in `tokens` in place of what it held, whose memory is used again. A refused call leaves
/// it as it was.
pub fn compute_stream_outputs_with_scratch(
    measures: &[usize],
    tokens: &mut Vec<Token>,
) -> Result<(StreamCounts, Texts, Texts), Refused> {
    let m = densities(measures);
    let mut classes = vec![0; m.len()];
    let mut lengths = vec![0; m.len()];
    let mut out = vec![0; 17 * m.len() + 33];
    let r = lent::compute_stream_outputs(&m, &mut classes, &mut lengths, &mut out)?;
    tokens.clear();
    let pairs = classes.iter().zip(&lengths).take(r.tokens);
    tokens.extend(pairs.map(|(&class, &length)| Token::of(class, length)));
    let (sn, rest) = three(&out, &r.lengths[..3]);
    let (standard, _) = three(rest, &r.lengths[3..]);
    Ok((r.counts, sn, standard))
}

/// An SN text. Question 1.
pub fn generate_breakdown(measures: &[usize], mode: BreakdownMode) -> Result<String, Refused> {
    let m = densities(measures);
    text(4 * m.len() + 11, |out| {
        lent::generate_breakdown(&m, mode, out)
    })
}

/// The three SN texts. Question 1.
pub fn generate_breakdowns(measures: &[usize]) -> Result<Texts, Refused> {
    let m = densities(measures);
    let mut out = vec![0; 12 * m.len() + 33];
    let lengths = lent::generate_breakdowns(&m, &mut out)?;
    Ok(three(&out, &lengths).0)
}

/// A standard text. Question 1.
pub fn stream_breakdown(
    measures: &[usize],
    level: StreamBreakdownLevel,
) -> Result<String, Refused> {
    let m = densities(measures);
    text(4 * m.len() + 11, |out| {
        lent::stream_breakdown(&m, level, out)
    })
}

/// Standard detailed, partial and simple. Question 1.
pub fn stream_breakdowns(measures: &[usize]) -> Result<Texts, Refused> {
    let m = densities(measures);
    let mut out = vec![0; 12 * m.len() + 33];
    let lengths = lent::stream_breakdowns(&m, &mut out)?;
    Ok(three(&out, &lengths).0)
}

/// One run as an SN text shows it. A break is refused by 5.
pub fn format_run_symbol(cat: RunDensity, len: usize, star: bool) -> Result<String, Refused> {
    // 20 digits, two signs and a star.
    text(23, |out| {
        lent::format_run_symbol(cat, len as u64, star, out)
    })
}

/// The standard detailed text of an SN detailed text. One outside the rules, or of more than 1,048,576 measures, is refused by
/// 18; one in which neighbouring runs have different classes, so that nobody can tell their gap, by 19.
pub fn sn_to_standard(sn: &str) -> Result<String, Refused> {
    // The empty text becomes one of 11 bytes.
    text(sn.len().max(11), |out| {
        lent::sn_to_standard(sn.as_bytes(), out)
    })
}

/// The densities of note rows, for the functions above. A line, ended by 0A, is a row of four bytes of `01234M`, `,` after a
/// measure, or `;` after the last; a row adds one to its measure if it holds `1`, `2` or `4`. Refused are, line by line, one that is
/// none of the three or lacks its 0A by 14, a 193rd row of a measure by 15, a text without the line `;` or with bytes after it by 16;
/// then a text of more than 1,048,576 measures by 1.
pub fn read_note_rows(text: &[u8]) -> Result<Vec<usize>, Refused> {
    // Each measure has a line of two bytes.
    let mut out = vec![0; MOST_MEASURES.min(text.len() / 2)];
    let measures = lent::read_note_rows(text, &mut out)?;
    Ok(out.iter().take(measures).map(|&d| d as usize).collect())
}

/// What the program `sheet` prints for a chart record: its nine lines, or the line `refused N` alone, with 13 for a record of more
/// than 16,384 bytes. A stack of 384 KB is enough for it.
#[must_use]
pub fn print_sheet(record: &[u8]) -> Vec<u8> {
    let sheet = ffi::print_sheet(record);
    sheet.bytes.iter().copied().take(sheet.length).collect()
}
