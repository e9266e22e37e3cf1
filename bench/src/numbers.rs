//! The proved number writer beside the Rust's, and, at a width, which the Rust's has not, beside the standard library's formatting: first that both
//! write the same, then how long each takes.
use crate::loads::lcg;
use crate::ours::{self, Written, LIBRARIES};
use crate::{cells, head, math, times, Work};
use std::fmt::Write;
use std::hint::black_box;

/// How many digits the numbers of a row have.
const DIGITS: [u32; 6] = [1, 2, 3, 7, 10, 20];

/// How many digits the numbers of a row have, and at which width they are.
const AT_WIDTHS: [(u32, usize); 6] = [(1, 7), (3, 7), (7, 7), (1, 20), (7, 20), (20, 20)];

/// 1,000 numbers of so many digits.
fn numbers(digits: u32) -> Vec<u64> {
    let least = 10_u64.pow(digits - 1);
    let most = least.checked_mul(10).map_or(u64::MAX, |above| above - 1);
    let mut x = 1;
    (0..1000)
        .map(|_| {
            let any = u64::from(lcg(&mut x)) << 32 | u64::from(lcg(&mut x));
            least + any % (most - least + 1)
        })
        .collect()
}

/// A number in a slice just long enough and in a longer one, whose later places must stay as they were, and in one a byte shorter.
fn same(due: &str, push: impl Fn(&mut [u8]) -> Written) {
    for room in [due.len() - 1, due.len(), 24] {
        let mut out = [0xAA; 24];
        let r = push(&mut out[..room]);
        let (refused, length) = if room < due.len() { (4, 0) } else { (0, due.len()) };
        assert_eq!((r.refused, r.length), (refused, length));
        assert!(out[..length] == due.as_bytes()[..length]);
        assert!(out[length..].iter().all(|&b| b == 0xAA));
    }
}

fn same_digits(n: u64) {
    let mut due = String::new();
    math::push_u64(&mut due, n);
    for library in LIBRARIES {
        same(&due, |out| library.push_u64(out, n));
    }
}

/// Numbers one behind the other in one text, which is begun anew.
fn by_rust<'a>(numbers: &'a [u64], bytes: usize, push: impl Fn(&mut String, u64) + 'a) -> Work<'a> {
    let mut text = String::with_capacity(bytes);
    Box::new(move || {
        text.clear();
        for &n in numbers {
            push(&mut text, n);
        }
        black_box(&text);
    })
}

fn by_ours<'a>(bytes: usize, push_all: impl Fn(&mut [u8]) + 'a) -> Work<'a> {
    let mut out = vec![0; bytes];
    Box::new(move || {
        push_all(&mut out);
        black_box(&out);
    })
}

fn row(digits: u32) {
    let numbers = &numbers(digits);
    let bytes = numbers.len() * digits as usize;
    let mut all = vec![by_rust(numbers, bytes, math::push_u64)];
    for library in LIBRARIES {
        all.push(by_ours(bytes, |out| library.push_all(numbers, out)));
    }
    println!("| {digits} | {}", cells(&times(&mut all), |ns| ns / numbers.len() as f64));
}

/// Numbers of so many digits, which are no more than the width.
fn row_at_width(digits: u32, width: usize) {
    let numbers = &numbers(digits);
    let bytes = numbers.len() * width;
    let push = |out: &mut [u8], n| ours::push_u64_padded(out, n, width as u32);
    for &n in numbers {
        same(&format!("{n:>width$}"), |out| push(out, n));
    }
    let mut all = [
        by_rust(numbers, bytes, |text, n| write!(text, "{n:>width$}").unwrap()),
        by_ours(bytes, |out| ours::push_each(numbers, out, push)),
    ];
    println!("| {digits} | {width} | {}", cells(&times(&mut all), |ns| ns / numbers.len() as f64));
}

pub fn table() {
    for n in DIGITS.into_iter().flat_map(numbers) {
        same_digits(n);
    }
    println!("The same digits and refusals for 1,000 numbers of each row.\n");
    println!("ns per number, best (median) of the rounds; times faster than the Rust.\n");
    head(&["digits"], &LIBRARIES.iter().map(|library| library.name.into()).collect::<Vec<_>>());
    DIGITS.into_iter().for_each(row);
    println!("\nThe same at a width, beside the standard library's formatting (`{{n:>7}}`, `{{n:>20}}`).\n");
    head(&["digits", "width"], &["ours".into()]);
    for (digits, width) in AT_WIDTHS {
        row_at_width(digits, width);
    }
    println!();
}
