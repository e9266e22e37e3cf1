//! Request A.6's lead and tail, from the densities.

/// The measures before and after the active part, which goes from the first to the last stream measure. A chart without one has
/// all its measures in lead.
pub fn lead_and_tail(m: &[usize]) -> (u32, u32) {
    let is_stream = |&density: &usize| density >= 16;
    let (lead, tail) = match (m.iter().position(is_stream), m.iter().rposition(is_stream)) {
        (Some(first), Some(last)) => (first, m.len() - 1 - last),
        _ => (m.len(), 0),
    };
    (lead as u32, tail as u32)
}
