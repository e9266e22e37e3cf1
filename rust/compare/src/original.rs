//! What the original answers, in the crate's types. It has no lead, no tail and no counts line for boards; they are worked out by
//! plain rules.

use crate::streams;
use crate::{plain_board, plain_ends};
use puvolamie::{RunDensity, StreamCounts, StreamSegment, Texts, Token};

pub const MODES: [(puvolamie::BreakdownMode, streams::BreakdownMode); 3] = [
    (
        puvolamie::BreakdownMode::Detailed,
        streams::BreakdownMode::Detailed,
    ),
    (
        puvolamie::BreakdownMode::Partial,
        streams::BreakdownMode::Partial,
    ),
    (
        puvolamie::BreakdownMode::Simplified,
        streams::BreakdownMode::Simplified,
    ),
];

pub const LEVELS: [(
    puvolamie::StreamBreakdownLevel,
    streams::StreamBreakdownLevel,
); 4] = [
    (
        puvolamie::StreamBreakdownLevel::Detailed,
        streams::StreamBreakdownLevel::Detailed,
    ),
    (
        puvolamie::StreamBreakdownLevel::Partial,
        streams::StreamBreakdownLevel::Partial,
    ),
    (
        puvolamie::StreamBreakdownLevel::Simple,
        streams::StreamBreakdownLevel::Simple,
    ),
    (
        puvolamie::StreamBreakdownLevel::Total,
        streams::StreamBreakdownLevel::Total,
    ),
];

pub const CLASSES: [(RunDensity, streams::RunDensity); 5] = [
    (RunDensity::Break, streams::RunDensity::Break),
    (RunDensity::Run16, streams::RunDensity::Run16),
    (RunDensity::Run20, streams::RunDensity::Run20),
    (RunDensity::Run24, streams::RunDensity::Run24),
    (RunDensity::Run32, streams::RunDensity::Run32),
];

/// Counts, with lead and tail, their line for boards, segments, tokens of the whole chart and of the active part, and the texts:
/// SN, standard, and Total.
pub struct Original {
    pub counts: StreamCounts,
    pub board: String,
    pub segments: Vec<StreamSegment>,
    pub all_tokens: Vec<Token>,
    pub tokens: Vec<Token>,
    pub sn: [String; 3],
    pub standard: [String; 4],
    pub active: Option<(usize, usize)>,
}

impl Original {
    /// The original's answers by its single calls; an error if its other calls give others.
    pub fn of(m: &[usize]) -> Result<Original, String> {
        let (counts, tokens) = streams::counts_and_tokens(m);
        let all_counts = counts_of(counts, plain_ends::lead_and_tail(m));
        let original = Original {
            counts: all_counts,
            board: plain_board::line(&all_counts),
            segments: streams::stream_sequences(m)
                .into_iter()
                .map(segment_of)
                .collect(),
            all_tokens: streams::all_tokens(m).into_iter().map(token_of).collect(),
            tokens: tokens.into_iter().map(token_of).collect(),
            sn: MODES.map(|(_, mode)| streams::generate_breakdown(m, mode)),
            standard: LEVELS.map(|(_, level)| streams::stream_breakdown(m, level)),
            active: streams::first_and_last(m),
        };
        let pass = streams::compute_stream_outputs(m);
        let agree = streams::generate_breakdowns(m) == original.sn_texts()
            && streams::stream_breakdowns(m) == original.standard_texts()
            && pass == (counts, original.sn_texts(), original.standard_texts())
            && streams::compute_stream_counts(m) == counts;
        agree
            .then_some(original)
            .ok_or_else(|| "the original's own calls differ".into())
    }

    pub fn sn_texts(&self) -> Texts {
        let [detailed, partial, simplified] = self.sn.clone();
        (detailed, partial, simplified)
    }

    pub fn standard_texts(&self) -> Texts {
        let [detailed, partial, simple, _] = self.standard.clone();
        (detailed, partial, simple)
    }

    /// The first level whose text is no longer than the width.
    pub fn label(&self, width: usize) -> Option<(puvolamie::StreamBreakdownLevel, &str)> {
        let mut levels = LEVELS.iter().zip(&self.standard);
        let fits = levels.find(|(_, text)| text.len() <= width);
        fits.map(|((level, _), text)| (*level, text.as_str()))
    }

    /// Share, worked out from the original's counts by the rule of A.3; none without a stream measure.
    pub fn share(&self) -> Option<u32> {
        let c = &self.counts;
        let runs = [
            c.run16_streams,
            c.run20_streams,
            c.run24_streams,
            c.run32_streams,
        ];
        let streams: u64 = runs.into_iter().map(u64::from).sum();
        let share = (10_000 * streams).checked_div(streams + u64::from(c.sn_breaks))?;
        (streams != 0).then_some(share as u32)
    }
}

fn counts_of(c: streams::StreamCounts, (lead, tail): (u32, u32)) -> StreamCounts {
    StreamCounts {
        run16_streams: c.run16_streams,
        run20_streams: c.run20_streams,
        run24_streams: c.run24_streams,
        run32_streams: c.run32_streams,
        total_breaks: c.total_breaks,
        sn_breaks: c.sn_breaks,
        lead,
        tail,
    }
}

fn segment_of(s: streams::StreamSegment) -> StreamSegment {
    StreamSegment {
        start: s.start,
        end: s.end,
        is_break: s.is_break,
    }
}

pub fn class_of(class: streams::RunDensity) -> RunDensity {
    let same = CLASSES.into_iter().find(|(_, theirs)| *theirs == class);
    same.map_or(RunDensity::Break, |(ours, _)| ours)
}

fn token_of(token: streams::Token) -> Token {
    match token {
        streams::Token::Run(class, length) => Token::Run(class_of(class), length),
        streams::Token::Break(length) => Token::Break(length),
    }
}
