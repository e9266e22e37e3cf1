//! `judge measures`: one line for each chart of a list.

use crate::list;
use crate::streams::{self, RunDensity, StreamBreakdownLevel, StreamCounts, Token};

pub fn print(list: &str) -> Result<String, String> {
    let mut out = String::new();
    let mut text_before = detailed(&[]);
    for chart in list::read(list)? {
        let text = detailed(&chart.measures);
        let line = line_of(&chart.measures, text == text_before)
            .map_err(|message| format!("{message}: {}", chart.line))?;
        out.push_str(&line);
        out.push('\n');
        text_before = text;
    }
    Ok(out)
}

/// The standard detailed text, on which alike rests.
fn detailed(measures: &[usize]) -> String {
    streams::stream_breakdown(measures, StreamBreakdownLevel::Detailed)
}

fn line_of(measures: &[usize], alike: bool) -> Result<String, String> {
    let (counts, tokens) = streams::counts_and_tokens(measures);
    if counts != streams::compute_stream_counts(measures) {
        return Err("the original counts in two ways".into());
    }
    let (start, length) = active_part(measures);
    let tokens = shown_tokens(&tokens);
    if tokens != shown_tokens(&streams::all_tokens(&measures[start..start + length])) {
        return Err("the original has two answers for the tokens".into());
    }
    let fields = [
        format!("counts {}", six_numbers(&counts)),
        format!("active {start} {length}"),
        word_and_list("tokens", &tokens),
        word_and_list("all", &shown_tokens(&streams::all_tokens(measures))),
        word_and_list("segments", &shown_segments(measures)),
        shown_share(&counts),
        format!("alike {}", u8::from(alike)),
    ];
    Ok(fields.join("; "))
}

/// Place of the first stream measure and length of the active part.
fn active_part(measures: &[usize]) -> (usize, usize) {
    match streams::first_and_last(measures) {
        Some((first, last)) => (first, last + 1 - first),
        None => (0, 0),
    }
}

/// The six counts, in the original's order.
pub fn six_numbers(counts: &StreamCounts) -> String {
    format!(
        "{} {} {} {} {} {}",
        counts.run16_streams,
        counts.run20_streams,
        counts.run24_streams,
        counts.run32_streams,
        counts.total_breaks,
        counts.sn_breaks
    )
}

/// Each token as class number and length.
fn shown_tokens(tokens: &[Token]) -> Vec<String> {
    tokens
        .iter()
        .map(|token| match *token {
            Token::Run(class, length) => format!("{}:{length}", class_number(class)),
            Token::Break(length) => format!("{}:{length}", class_number(RunDensity::Break)),
        })
        .collect()
}

fn class_number(class: RunDensity) -> u8 {
    match class {
        RunDensity::Break => 0,
        RunDensity::Run16 => 1,
        RunDensity::Run20 => 2,
        RunDensity::Run24 => 3,
        RunDensity::Run32 => 4,
    }
}

/// Each segment as start and end, a break marked.
fn shown_segments(measures: &[usize]) -> Vec<String> {
    streams::stream_sequences(measures)
        .iter()
        .map(|segment| {
            let mark = if segment.is_break { "!" } else { "" };
            format!("{}-{}{mark}", segment.start, segment.end)
        })
        .collect()
}

/// The word stands alone before an empty list.
fn word_and_list(word: &str, list: &[String]) -> String {
    if list.is_empty() {
        word.into()
    } else {
        format!("{word} {}", list.join(" "))
    }
}

/// Share is no part of the original: worked out here from its counts, by the rule of document 02, A.3.
fn shown_share(counts: &StreamCounts) -> String {
    let runs = [
        counts.run16_streams,
        counts.run20_streams,
        counts.run24_streams,
        counts.run32_streams,
    ];
    let streams: u64 = runs.into_iter().map(u64::from).sum();
    if streams == 0 {
        return "share refused 7".into();
    }
    let all = streams + u64::from(counts.sn_breaks);
    format!("share {}", 10_000 * streams / all)
}
