//! The texts of note rows that are compared.

use crate::random::Random;
use crate::small;

/// Bytes of the three kinds of lines, and one that stands in none.
const SMALL: &[u8] = b"01M,;\n\r";

/// Bytes of a row; half of them are "0".
const ROW: &[u8] = b"000001234M";

/// Bytes that a text is changed with, those next to a line's own among them.
pub const CHANGES: &[u8] = b"01234M,;\n,;\n\r\0 +-/5:<LNm\xFF";

/// How many rows a measure has; many, at both sides of 192, are rarer.
const FEW_ROWS: [usize; 14] = [0, 0, 1, 1, 2, 3, 4, 4, 4, 8, 12, 16, 24, 48];
const MANY_ROWS: [usize; 8] = [0, 1, 190, 191, 192, 192, 193, 194];

/// All texts of `length` of the small bytes.
pub fn small(length: usize) -> impl Iterator<Item = Vec<u8>> {
    small::lists(SMALL, length)
}

/// A short text, accepted, with every byte in turn at each of its places.
pub fn each_byte() -> impl Iterator<Item = Vec<u8>> {
    let text = b"1000\n,\n3M24\n;\n";
    let places = (0..text.len()).flat_map(|at| (0..=255).map(move |byte| (at, byte)));
    places.map(|(at, byte)| {
        let mut changed = text.to_vec();
        changed[at] = byte;
        changed
    })
}

/// Up to 8 measures of few rows each.
pub fn short(random: &mut Random) -> Vec<u8> {
    let measures = 1 + random.below(8);
    of_measures(random, measures, &FEW_ROWS)
}

/// Up to 4 measures, of which some have around 192 rows.
pub fn full(random: &mut Random) -> Vec<u8> {
    let measures = 1 + random.below(4);
    of_measures(random, measures, &MANY_ROWS)
}

/// So many measures of up to 2 rows each.
pub fn long(random: &mut Random, measures: usize) -> Vec<u8> {
    of_measures(random, measures, &[0, 0, 1, 2])
}

/// So many measures, the number of rows of each from `rows`.
fn of_measures(random: &mut Random, measures: usize, rows: &[usize]) -> Vec<u8> {
    let mut text = Vec::new();
    for i in 1..=measures {
        for _ in 0..random.one_of(rows) {
            text.extend([(); 4].map(|()| random.one_of(ROW)));
            text.push(b'\n');
        }
        text.extend(if i == measures { b";\n" } else { b",\n" });
    }
    text
}

/// A byte changed, removed or inserted, or the text cut or continued, with one of these bytes.
pub fn change(random: &mut Random, text: &mut Vec<u8>, bytes: &[u8]) {
    let byte = random.one_of(bytes);
    let at = random.below(text.len() + 1);
    match random.below(5) {
        0 if at < text.len() => text[at] = byte,
        1 if at < text.len() => drop(text.remove(at)),
        2 => text.insert(at, byte),
        3 => text.truncate(at),
        _ => text.push(byte),
    }
}

/// A text's length, and its first bytes.
pub fn described(text: &[u8]) -> String {
    let start = &text[..text.len().min(300)];
    format!("({} bytes) {}", text.len(), start.escape_ascii())
}
