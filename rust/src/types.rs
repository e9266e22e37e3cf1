//! The types of the original, and what it lacks: two of the counts, and the error.

use std::error::Error;
use std::fmt;

/// The most measures that a chart has.
pub const MOST_MEASURES: usize = 1_048_576;

/// The original's counts, and the measures before and after the active part. The four run counts, `sn_breaks`, `lead` and `tail`
/// add up to the number of measures.
#[repr(C)]
#[derive(Debug, Default, Clone, Copy, PartialEq, Eq)]
pub struct StreamCounts {
    pub run16_streams: u32,
    pub run20_streams: u32,
    pub run24_streams: u32,
    pub run32_streams: u32,
    pub total_breaks: u32,
    pub sn_breaks: u32,
    /// Measures before the active part; all measures of a chart without a stream measure.
    pub lead: u32,
    /// Measures after the active part.
    pub tail: u32,
}

#[derive(Debug, Clone, Copy, PartialEq, Eq, Hash)]
pub enum RunDensity {
    Run32,
    Run24,
    Run20,
    Run16,
    Break,
}

impl RunDensity {
    /// The class's number, 0 for a break.
    pub(crate) fn number(self) -> u32 {
        match self {
            RunDensity::Break => 0,
            RunDensity::Run16 => 1,
            RunDensity::Run20 => 2,
            RunDensity::Run24 => 3,
            RunDensity::Run32 => 4,
        }
    }

    /// The class of a number from 0 to 4.
    pub(crate) fn of(number: u32) -> RunDensity {
        match number {
            1 => RunDensity::Run16,
            2 => RunDensity::Run20,
            3 => RunDensity::Run24,
            4 => RunDensity::Run32,
            _ => RunDensity::Break,
        }
    }
}

#[derive(Debug, Clone, Copy, PartialEq, Eq)]
pub enum BreakdownMode {
    Detailed,
    Partial,
    Simplified,
}

impl BreakdownMode {
    pub(crate) fn number(self) -> u32 {
        match self {
            BreakdownMode::Detailed => 0,
            BreakdownMode::Partial => 1,
            BreakdownMode::Simplified => 2,
        }
    }
}

#[derive(Debug, Clone, Copy, PartialEq, Eq)]
pub enum StreamBreakdownLevel {
    Detailed,
    Partial,
    Simple,
    Total,
}

impl StreamBreakdownLevel {
    pub(crate) fn number(self) -> u32 {
        match self {
            StreamBreakdownLevel::Detailed => 1,
            StreamBreakdownLevel::Partial => 2,
            StreamBreakdownLevel::Simple => 3,
            StreamBreakdownLevel::Total => 4,
        }
    }

    /// The level of a number from 1 to 4.
    pub(crate) fn of(number: u32) -> StreamBreakdownLevel {
        match number {
            1 => StreamBreakdownLevel::Detailed,
            2 => StreamBreakdownLevel::Partial,
            3 => StreamBreakdownLevel::Simple,
            _ => StreamBreakdownLevel::Total,
        }
    }
}

#[repr(C)]
#[derive(Debug, Default, Clone, Copy, PartialEq, Eq)]
pub struct StreamSegment {
    pub start: usize,
    pub end: usize,
    pub is_break: bool,
}

#[derive(Debug, Clone, Copy, PartialEq, Eq)]
pub enum Token {
    Run(RunDensity, usize),
    Break(usize),
}

impl Token {
    pub(crate) fn of(class: u8, length: u32) -> Token {
        match RunDensity::of(u32::from(class)) {
            RunDensity::Break => Token::Break(length as usize),
            run => Token::Run(run, length as usize),
        }
    }
}

/// The number of the first question that was answered with no.
#[derive(Debug, Clone, Copy, PartialEq, Eq)]
pub struct Refused(pub u32);

impl Refused {
    /// `value`, unless the answer carries a refusal.
    pub(crate) fn unless<T>(refused: u32, value: T) -> Result<T, Refused> {
        if refused == 0 {
            Ok(value)
        } else {
            Err(Refused(refused))
        }
    }
}

impl fmt::Display for Refused {
    fn fmt(&self, f: &mut fmt::Formatter) -> fmt::Result {
        let question = match self.0 {
            1 => "at most 1,048,576 measures?",
            2 => "a place in both token slices for each token?",
            3 => "a place for each segment?",
            4 => "is the text slice as long as all the text due?",
            5 => "a stream class for a run symbol?",
            6 => "does some level fit the label's width?",
            7 => "a stream measure, for share?",
            8 => "three head bytes present?",
            9 => "tag 01 or 02?",
            10 => "a name as first field and nowhere else?",
            11 => "name of 1 to 64 bytes from 20 to 7E?",
            12 => "a place in the density slice for each?",
            13 => "at most 16,384 bytes of input?",
            14 => "a row, \",\" or \";\", each ended by 0A?",
            15 => "at most 192 rows in a measure?",
            16 => "the line \";\", and nothing after it?",
            17 => "the whole payload present?",
            18 => "runs and breaks by the rules, with at most 1,048,576 measures?",
            19 => "is each gap decided?",
            20 => "a width of at most 20?",
            _ => "unknown question",
        };
        write!(f, "refused {}: {}", self.0, question)
    }
}

impl Error for Refused {}
