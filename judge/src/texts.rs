//! `judge texts`: counts, number of tokens and the seven texts of each chart of
//! a list.

use crate::list;
use crate::measures::six_numbers;
use crate::streams::{
    compute_stream_counts, compute_stream_outputs, counts_and_tokens, generate_breakdown,
    generate_breakdowns, stream_breakdown, stream_breakdowns, BreakdownMode, StreamBreakdownLevel,
};

/// SN detailed, partial, simplified, standard detailed, partial, simple.
type SixTexts = [String; 6];

pub fn print(list: &str) -> Result<String, String> {
    let mut out = String::new();
    for chart in list::read(list)? {
        let texts =
            six_texts(&chart.measures).map_err(|message| format!("{message}: {}", chart.line))?;
        let (counts, tokens) = counts_and_tokens(&chart.measures);
        push_line(&mut out, &format!("chart {}", chart.line));
        push_line(
            &mut out,
            &format!("{} {}", six_numbers(&counts), tokens.len()),
        );
        for text in &texts {
            push_line(&mut out, text);
        }
        let total = stream_breakdown(&chart.measures, StreamBreakdownLevel::Total);
        push_line(&mut out, &total);
    }
    Ok(out)
}

fn push_line(out: &mut String, line: &str) {
    out.push_str(line);
    out.push('\n');
}

/// The texts of the pass, if every other way gives the same.
fn six_texts(measures: &[usize]) -> Result<SixTexts, String> {
    let (counts, sn, standard) = compute_stream_outputs(measures);
    if counts != compute_stream_counts(measures) || counts != counts_and_tokens(measures).0 {
        return Err("the original counts in two ways".into());
    }
    let texts = six(sn, standard);
    if texts != six(generate_breakdowns(measures), stream_breakdowns(measures)) {
        return Err("the pass and the calls for three texts differ".into());
    }
    if texts != texts_one_by_one(measures) {
        return Err("the pass and the calls for one text differ".into());
    }
    Ok(texts)
}

fn six(sn: (String, String, String), standard: (String, String, String)) -> SixTexts {
    [sn.0, sn.1, sn.2, standard.0, standard.1, standard.2]
}

fn texts_one_by_one(measures: &[usize]) -> SixTexts {
    [
        generate_breakdown(measures, BreakdownMode::Detailed),
        generate_breakdown(measures, BreakdownMode::Partial),
        generate_breakdown(measures, BreakdownMode::Simplified),
        stream_breakdown(measures, StreamBreakdownLevel::Detailed),
        stream_breakdown(measures, StreamBreakdownLevel::Partial),
        stream_breakdown(measures, StreamBreakdownLevel::Simple),
    ]
}
