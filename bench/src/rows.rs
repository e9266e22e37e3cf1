//! The proved reader of note rows beside the plain Rust: first that both answer the same, then how long each takes.
use crate::loads::lcg;
use crate::{cells, head, ours, plain_rows, times};
use std::hint::black_box;

/// A number below `bound`, which is at most 256.
fn below(x: &mut u32, bound: usize) -> usize {
    (lcg(x) >> 24) as usize % bound
}

/// Half of the rows have no note, the others one or two; some of both have a mine or the end of a hold.
fn row(x: &mut u32) -> [u8; 4] {
    let mut row = *b"0000";
    if below(x, 4) == 0 {
        row[below(x, 4)] = b"M3"[below(x, 2)];
    }
    for _ in 0..[0, 0, 0, 0, 1, 1, 1, 2][below(x, 8)] {
        row[below(x, 4)] = b"11111124"[below(x, 8)];
    }
    row
}

/// Measures until there are so many, or so many bytes; the number of rows of each from `rows`.
fn text(seed: u32, rows: &[usize], measures: usize, bytes: usize) -> Vec<u8> {
    let mut x = seed;
    let mut text = Vec::new();
    for _ in 0..measures {
        for _ in 0..rows[below(&mut x, rows.len())] {
            text.extend(row(&mut x));
            text.push(b'\n');
        }
        text.extend(b",\n");
        if text.len() >= bytes {
            break;
        }
    }
    let last = text.len() - 2;
    text[last] = b';';
    text
}

/// Numbers of rows that measures of charts have.
const ROWS: [usize; 7] = [16, 24, 32, 48, 64, 96, 192];

fn chart(seed: u32) -> Vec<u8> {
    text(seed, &ROWS, 300, usize::MAX)
}

/// The library reads a text of more than 4,096 measures, as the last one here, twice.
fn all() -> Vec<(&'static str, Vec<Vec<u8>>)> {
    vec![
        ("300 measures of 16 to 192 rows", vec![chart(1)]),
        ("the same, 64 charts in turn", (1..=64).map(chart).collect()),
        ("1 MB, measures of 16 to 192 rows", vec![text(1, &ROWS, usize::MAX, 1_000_000)]),
        ("1 MB, measures of 4 rows", vec![text(1, &[4], usize::MAX, 1_000_000)]),
    ]
}

/// Both on one text, with a slice whose left-over places must stay as they were. The number of measures.
fn same(text: &[u8]) -> usize {
    let mut densities = vec![0xAAAA; text.len() / 2 + 1];
    let r = ours::read_note_rows(text, &mut densities);
    let (refused, due) = match plain_rows::read(text) {
        Ok(due) => (0, due),
        Err(number) => (number, Vec::new()),
    };
    assert_eq!((r.refused, r.measures), (refused, due.len()));
    assert!(densities[..due.len()] == due);
    assert!(densities[due.len()..].iter().all(|&d| d == 0xAAAA));
    due.len()
}

/// Short texts, whole and cut.
fn same_on_all() -> usize {
    let mut texts = 0;
    for seed in 0..3000 {
        let text = text(seed, &[0, 1, 4, 16, 191, 192, 193], 1 + seed as usize % 5, usize::MAX);
        same(&text);
        same(&text[..text.len() * (seed as usize % 100) / 100]);
        texts += 2;
    }
    texts
}

/// Texts one after the other.
fn line(name: &str, texts: &[Vec<u8>]) {
    let measures: usize = texts.iter().map(|text| same(text)).sum();
    let mut densities = vec![0; measures];
    let t = times(&mut [
        Box::new(|| {
            for text in texts {
                let _ = black_box(plain_rows::read(black_box(text)));
            }
        }),
        Box::new(|| {
            for text in texts {
                black_box(ours::read_note_rows(black_box(text), &mut densities));
            }
        }),
    ]);
    let bytes: usize = texts.iter().map(Vec::len).sum();
    println!("| {name} | {bytes} | {measures} | {}", cells(&t, |ns| bytes as f64 / ns));
}

pub fn table() {
    println!("The same densities and refusals on {} texts of note rows and on those below.\n", same_on_all());
    println!("Bytes a ns, best (median) of the rounds; times faster than the Rust.\n");
    head(&["text", "bytes", "measures"], &["ours".into()]);
    for (name, texts) in all() {
        line(name, &texts);
    }
}
