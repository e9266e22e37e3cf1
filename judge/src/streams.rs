//! The original stream module, unchanged, with ways to its private functions.

#![allow(dead_code)]

include!("../rssp/streams.rs");

/// `active_range`: places of the first and the last stream measure.
pub fn first_and_last(measures: &[usize]) -> Option<(usize, usize)> {
    active_range(measures)
}

/// `stream_tokens`: all tokens of the measures given, breaks at both ends too.
pub fn all_tokens(measures: &[usize]) -> Vec<Token> {
    stream_tokens(measures).collect()
}

/// `compute_stream_counts_and_tokens`: counts, and tokens of the active part.
pub fn counts_and_tokens(measures: &[usize]) -> (StreamCounts, Vec<Token>) {
    let mut tokens = Vec::new();
    let counts = compute_stream_counts_and_tokens(measures, &mut tokens);
    (counts, tokens)
}
