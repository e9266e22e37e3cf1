//! `judge runs`: run symbols by class, length and star.

use crate::streams::{format_run_symbol, RunDensity};

/// Classes 1 to 4.
const CLASSES: [RunDensity; 4] = [
    RunDensity::Run16,
    RunDensity::Run20,
    RunDensity::Run24,
    RunDensity::Run32,
];

/// Lengths at changes of the number of digits, one past 32 bits, the greatest.
const LENGTHS: [usize; 7] = [0, 9, 10, 99, 100, 4_294_967_296, 18_446_744_073_709_551_615];

pub fn print() -> String {
    let mut out = String::new();
    for class in CLASSES {
        for length in LENGTHS {
            for star in [false, true] {
                out.push_str(&format_run_symbol(class, length, star));
                out.push('\n');
            }
        }
    }
    out
}
