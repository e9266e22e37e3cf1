//! Small lists.

/// All lists of `length` of these values.
pub fn lists<T: Copy>(values: &[T], length: usize) -> impl Iterator<Item = Vec<T>> + '_ {
    let count = values.len().pow(length as u32);
    (0..count).map(move |number| {
        let digit = |i: u32| number / values.len().pow(i) % values.len();
        (0..length as u32).map(|i| values[digit(i)]).collect()
    })
}
