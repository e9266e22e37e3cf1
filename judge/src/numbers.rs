//! `judge numbers`: the number writer at every change of length.

use crate::math::push_u64;

pub fn print() -> String {
    let mut out = String::new();
    push_line(&mut out, 0);
    for exponent in 0..=19 {
        let power = 10u64.pow(exponent);
        push_line(&mut out, power - 1);
        push_line(&mut out, power);
        push_line(&mut out, power + 1);
    }
    push_line(&mut out, u64::MAX);
    out
}

fn push_line(out: &mut String, number: u64) {
    push_u64(out, number);
    out.push('\n');
}
