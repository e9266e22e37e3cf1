//! The functions with the original's names.

use crate::original::{Original, LEVELS, MODES};
use crate::tally::{Outcome, Tally};
use puvolamie::{StreamCounts, Token};

pub fn compare(m: &[usize], original: &Original, tally: &mut Tally) -> Outcome {
    pass(m, original, tally)?;
    counts(m, original, tally)?;
    board_counts(m, original, tally)?;
    let ours = puvolamie::stream_sequences(m);
    tally.same("stream_sequences", ours.as_ref(), Ok(&original.segments))?;
    let (sn, standard) = (original.sn_texts(), original.standard_texts());
    let ours = puvolamie::generate_breakdowns(m);
    tally.same("generate_breakdowns", ours, Ok(sn))?;
    let ours = puvolamie::stream_breakdowns(m);
    tally.same("stream_breakdowns", ours, Ok(standard))?;
    for ((mode, _), text) in MODES.into_iter().zip(&original.sn) {
        let ours = puvolamie::generate_breakdown(m, mode);
        tally.same("generate_breakdown", ours.as_ref(), Ok(text))?;
    }
    for ((level, _), text) in LEVELS.into_iter().zip(&original.standard) {
        let ours = puvolamie::stream_breakdown(m, level);
        tally.same("stream_breakdown", ours.as_ref(), Ok(text))?;
    }
    Ok(())
}

/// Counts; all but `total_breaks` add up to the number of measures.
fn counts(m: &[usize], original: &Original, tally: &mut Tally) -> Outcome {
    let ours = puvolamie::compute_stream_counts(m);
    tally.same("compute_stream_counts", ours, Ok(original.counts))?;
    let sum = ours.map(measures_in);
    tally.same("the sum of the counts", sum, Ok(m.len()))
}

/// The counts line for boards, which has 64 bytes for every chart.
fn board_counts(m: &[usize], original: &Original, tally: &mut Tally) -> Outcome {
    let ours = puvolamie::board_counts(m);
    tally.same("board_counts", ours.as_ref(), Ok(&original.board))?;
    let bytes = ours.map(|line| line.len());
    tally.same("bytes of the counts line for boards", bytes, Ok(64))
}

fn measures_in(c: StreamCounts) -> usize {
    let runs = [
        c.run16_streams,
        c.run20_streams,
        c.run24_streams,
        c.run32_streams,
    ];
    let others = [c.sn_breaks, c.lead, c.tail];
    runs.into_iter().chain(others).map(|n| n as usize).sum()
}

/// The pass, with and without the caller's tokens.
fn pass(m: &[usize], original: &Original, tally: &mut Tally) -> Outcome {
    let due = Ok((
        original.counts,
        original.sn_texts(),
        original.standard_texts(),
    ));
    let mut tokens = vec![Token::Break(7)];
    let ours = puvolamie::compute_stream_outputs_with_scratch(m, &mut tokens);
    tally.same("compute_stream_outputs_with_scratch", ours, due.clone())?;
    tally.same("tokens of the pass", &tokens, &original.tokens)?;
    let ours = puvolamie::compute_stream_outputs(m);
    tally.same("compute_stream_outputs", ours, due)
}

/// A chart of too many measures.
pub fn compare_refused(m: &[usize], tally: &mut Tally) -> Outcome {
    let mut tokens = vec![Token::Break(7)];
    let scratch = puvolamie::compute_stream_outputs_with_scratch(m, &mut tokens);
    tally.too_many("compute_stream_outputs_with_scratch", scratch)?;
    tally.same("tokens of a refused pass", tokens, vec![Token::Break(7)])?;
    let pass = puvolamie::compute_stream_outputs(m);
    tally.too_many("compute_stream_outputs", pass)?;
    let counts = puvolamie::compute_stream_counts(m);
    tally.too_many("compute_stream_counts", counts)?;
    tally.too_many("board_counts", puvolamie::board_counts(m))?;
    tally.too_many("generate_breakdowns", puvolamie::generate_breakdowns(m))?;
    tally.too_many("stream_breakdowns", puvolamie::stream_breakdowns(m))?;
    tally.too_many("stream_sequences", puvolamie::stream_sequences(m))?;
    for (mode, _) in MODES {
        let text = puvolamie::generate_breakdown(m, mode);
        tally.too_many("generate_breakdown", text)?;
    }
    for (level, _) in LEVELS {
        let text = puvolamie::stream_breakdown(m, level);
        tally.too_many("stream_breakdown", text)?;
    }
    Ok(())
}
