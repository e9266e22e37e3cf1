//! The chart records that are compared.

use crate::random::Random;
use crate::small;

/// Tags, a length's bytes and a byte of a name.
const SMALL: [u8; 5] = [0, 1, 2, 3, b'A'];

/// Tags of a field behind the name; most are known.
const TAGS: [u8; 12] = [2, 2, 2, 2, 2, 2, 2, 2, 1, 0, 3, 255];

/// Lengths of a name, and of any other payload.
const NAMES: [usize; 12] = [1, 1, 1, 1, 2, 2, 5, 5, 63, 64, 65, 0];
const PAYLOADS: [usize; 10] = [0, 0, 1, 1, 2, 3, 9, 255, 256, 257];

/// Bytes of a name; and those with the two that stand next to them.
const NAME: &[u8] = b" A0b~";
const BAD_NAME: &[u8] = b" A0b~\x1F\x7F";

/// All records of `length` of the small bytes.
pub fn small(length: usize) -> impl Iterator<Item = Vec<u8>> {
    small::lists(&SMALL, length)
}

/// A name, and up to 5 fields behind it.
pub fn short(random: &mut Random) -> Vec<u8> {
    let length = random.one_of(&NAMES);
    let bytes = if random.below(8) == 0 { BAD_NAME } else { NAME };
    let name: Vec<u8> = (0..length).map(|_| random.one_of(bytes)).collect();
    let mut record = field(1, &name);
    for _ in 0..random.below(6) {
        let length = random.one_of(&PAYLOADS);
        let payload: Vec<u8> = (0..length).map(|_| random.next() as u8).collect();
        record.extend(field(random.one_of(&TAGS), &payload));
    }
    record
}

/// A name, and so many densities in fields as long as can be.
pub fn long(random: &mut Random, measures: usize) -> Vec<u8> {
    let densities: Vec<u8> = (0..measures).map(|_| random.next() as u8).collect();
    let fields = densities.chunks(65_535).flat_map(|part| field(2, part));
    field(1, b"A").into_iter().chain(fields).collect()
}

/// A tag, a payload's length in two bytes, high byte first, and the payload.
fn field(tag: u8, payload: &[u8]) -> Vec<u8> {
    let [high, low] = (payload.len() as u16).to_be_bytes();
    [&[tag, high, low], payload].concat()
}

/// A record's length, and its first bytes.
pub fn described(record: &[u8]) -> String {
    let start = &record[..record.len().min(100)];
    format!("({} bytes) {start:02x?}", record.len())
}
