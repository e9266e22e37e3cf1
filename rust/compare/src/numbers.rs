//! Numbers, classes and run symbols.

use crate::guarded::Guarded;
use crate::original::{class_of, CLASSES};
use crate::tally::{Outcome, Tally};
use crate::{math, streams};
use puvolamie::{lent, Refused, RunDensity};

pub fn compare(tally: &mut Tally) -> Outcome {
    for density in (0..300).chain([65_536, 4_294_967_295, 4_294_967_296, usize::MAX]) {
        let theirs = class_of(streams::categorize_measure_density(density));
        tally.same(
            "categorize",
            puvolamie::categorize_measure_density(density),
            theirs,
        )?;
    }
    for n in edges() {
        number(n, tally)?;
        large_widths(n, tally)?;
        for (ours, theirs) in CLASSES {
            for star in [false, true] {
                run_symbol(ours, theirs, n, star, tally)?;
            }
        }
    }
    Ok(())
}

/// Numbers below 1,100, and those around each power of ten and of two.
fn edges() -> Vec<u64> {
    let mut numbers: Vec<u64> = (0..1100).collect();
    let tens = (0..20).map(|k| 10_u64.pow(k));
    let twos = (0..64).map(|k| 1_u64 << k);
    for power in tens.chain(twos) {
        numbers.extend([power - 1, power, power.saturating_add(1)]);
    }
    numbers.push(u64::MAX);
    numbers
}

/// At every width. The original has none, and writes what is due at 0 and 1.
fn number(n: u64, tally: &mut Tally) -> Outcome {
    let mut theirs = String::new();
    math::push_u64(&mut theirs, n);
    let mut ours = String::new();
    puvolamie::push_u64(&mut ours, n);
    tally.same("push_u64", &ours, &theirs)?;
    for width in 0..=20 {
        let due = format!("{n:>width$}");
        if width < 2 {
            tally.same("a number as Rust formats it", &due, &theirs)?;
        }
        at_width(n, width as u32, &due, tally)?;
    }
    Ok(())
}

fn at_width(n: u64, width: u32, due: &str, tally: &mut Tally) -> Outcome {
    let mut ours = String::from("n ");
    let r = puvolamie::push_u64_padded(&mut ours, n, width);
    tally.same("push_u64_padded", r, Ok(()))?;
    tally.same("push_u64_padded", ours, format!("n {due}"))?;
    for room in 0..=due.len() + 2 {
        let mut out = Guarded::new(room, 0xA5);
        let r = lent::push_u64(out.lend(), n, width);
        out.compare_text("lent push_u64", r, due, tally)?;
    }
    Ok(())
}

/// Widths above 20: the refusal 20, before question 4, and nothing written.
fn large_widths(n: u64, tally: &mut Tally) -> Outcome {
    for width in [21, 22, u32::MAX] {
        let mut ours = String::from("n ");
        let r = puvolamie::push_u64_padded(&mut ours, n, width);
        tally.same("a large width", r, Err(Refused(20)))?;
        tally.same("a large width", ours.as_str(), "n ")?;
        for room in [0, 1, 19, 20, 21, 24] {
            let mut out = Guarded::new(room, 0xA5);
            let r = lent::push_u64(out.lend(), n, width);
            tally.same("lent, a large width", r, Err(Refused(20)))?;
            out.compare("lent, a large width", &[], tally)?;
        }
    }
    Ok(())
}

fn run_symbol(
    ours: RunDensity,
    theirs: streams::RunDensity,
    n: u64,
    star: bool,
    tally: &mut Tally,
) -> Outcome {
    let length = n as usize;
    if ours == RunDensity::Break {
        let r = puvolamie::format_run_symbol(ours, length, star);
        return tally.same("a break's symbol", r, Err(Refused(5)));
    }
    let due = streams::format_run_symbol(theirs, length, star);
    let r = puvolamie::format_run_symbol(ours, length, star);
    tally.same("format_run_symbol", r.as_ref(), Ok(&due))?;
    for room in [0, due.len() - 1, due.len(), due.len() + 1] {
        let mut out = Guarded::new(room, 0xA5);
        let r = lent::format_run_symbol(ours, n, star, out.lend());
        out.compare_text("lent format_run_symbol", r, &due, tally)?;
    }
    Ok(())
}
