//! Compares the crate with the unchanged original: counts, segments, tokens and the seven texts by every call, and the places
//! of lent slices that must not change. The original has no width of a number, no lead and no tail in its counts, no counts line
//! for boards, no reader of chart records or of note rows, and no converter of SN texts; those are compared with plain ones.
//!
//! compare [--quick] [SEED]

mod chart_records;
mod charts;
mod densities;
mod guarded;
mod lent;
#[path = "../../../judge/src/math.rs"]
mod math;
mod note_rows;
mod numbers;
mod original;
mod owned;
mod plain_board;
mod plain_ends;
mod plain_record;
mod plain_rows;
mod plain_sn_to_standard;
mod random;
mod records;
mod small;
mod sn_texts;
#[path = "../../../judge/src/streams.rs"]
mod streams;
mod tally;
mod texts;

use original::Original;
use random::Random;
use std::process::ExitCode;
use std::time::Instant;
use tally::{Outcome, Tally};

/// How much is compared: small charts by their length, random charts by their number, `counted` of each number of tokens, and
/// long charts of each length. Every `lent_every`th random chart, and small charts of up to `small_lent` measures, are given
/// lent slices of many lengths.
struct Extent {
    small: usize,
    small_lent: usize,
    shaped: u64,
    scattered: u64,
    lent_every: u64,
    counted: usize,
    long: usize,
    rows: note_rows::Extent,
    records: chart_records::Extent,
    sn: sn_texts::Extent,
}

const FULL: Extent = Extent {
    small: 7,
    small_lent: 5,
    shaped: 1_000_000,
    scattered: 500_000,
    lent_every: 10,
    counted: 300,
    long: 10,
    rows: note_rows::Extent {
        small: 8,
        short: 1_000_000,
        full: 100_000,
        long: 10,
    },
    records: chart_records::Extent {
        small: 8,
        random: 100_000,
        long: 3,
    },
    sn: sn_texts::Extent {
        charts: 6,
        small: 6,
        random: 500_000,
    },
};

const QUICK: Extent = Extent {
    small: 5,
    small_lent: 3,
    shaped: 30_000,
    scattered: 20_000,
    lent_every: 20,
    counted: 10,
    long: 2,
    rows: note_rows::Extent {
        small: 6,
        short: 50_000,
        full: 5_000,
        long: 1,
    },
    records: chart_records::Extent {
        small: 6,
        random: 5_000,
        long: 1,
    },
    sn: sn_texts::Extent {
        charts: 6,
        small: 5,
        random: 20_000,
    },
};

/// The lent slices that a chart is given.
#[derive(Clone, Copy)]
enum Lends {
    None,
    AroundDue,
    JustDue,
}

impl Lends {
    fn around_if(holds: bool) -> Lends {
        if holds {
            Lends::AroundDue
        } else {
            Lends::None
        }
    }
}

fn main() -> ExitCode {
    let words: Vec<String> = std::env::args().skip(1).collect();
    let quick = words.iter().any(|word| word == "--quick");
    let seed = words.iter().find_map(|word| word.parse().ok()).unwrap_or(1);
    let start = Instant::now();
    let mut tally = Tally::default();
    let outcome = compare(if quick { &QUICK } else { &FULL }, seed, &mut tally);
    println!(
        "{} charts, {} texts of note rows, {} records, {} SN texts, {} comparisons, seed {seed}, {:.1} s",
        tally.charts,
        tally.texts,
        tally.records,
        tally.sn_texts,
        tally.comparisons,
        start.elapsed().as_secs_f64()
    );
    match outcome {
        Ok(()) => ExitCode::SUCCESS,
        Err(difference) => {
            println!("DIFFERENCE: {difference}");
            ExitCode::FAILURE
        }
    }
}

fn compare(extent: &Extent, seed: u64, tally: &mut Tally) -> Outcome {
    numbers::compare(tally)?;
    say(tally, "numbers and run symbols");
    small_charts(extent, tally)?;
    say(
        tally,
        &format!("all charts of up to {} measures", extent.small),
    );
    let random = &mut Random::new(seed);
    let shaped = || charts::shaped(random);
    random_charts(extent.shaped, extent.lent_every, shaped, tally)?;
    say(tally, "random charts of runs and gaps at every boundary");
    let scattered = || charts::scattered(random);
    random_charts(extent.scattered, extent.lent_every, scattered, tally)?;
    say(
        tally,
        "random charts of up to 12 measures at the class edges",
    );
    token_counts(extent, random, tally)?;
    say(
        tally,
        "charts of numbers of tokens at which the pass changes its way",
    );
    domain_edge(extent, random, tally)?;
    say(tally, "charts at the domain's edge");
    note_rows::compare(&extent.rows, random, tally)?;
    chart_records::compare(&extent.records, random, tally)?;
    sn_texts::compare(&extent.sn, random, tally)
}

fn say(tally: &Tally, what: &str) {
    println!(
        "{what}: {} charts, {} comparisons so far",
        tally.charts, tally.comparisons
    );
}

fn chart(m: &[usize], lends: Lends, tally: &mut Tally) -> Outcome {
    tally.charts += 1;
    let original = Original::of(m)?;
    let lent = |tally: &mut Tally| match lends {
        Lends::None => Ok(()),
        Lends::AroundDue => lent::compare(m, &original, tally),
        Lends::JustDue => lent::compare_just_due(m, &original, tally),
    };
    owned::compare(m, &original, tally)
        .and_then(|()| lent(tally))
        .map_err(|difference| format!("{difference}\nin the chart {}", charts::described(m)))
}

fn small_charts(extent: &Extent, tally: &mut Tally) -> Outcome {
    for length in 0..=extent.small {
        let lends = Lends::around_if(length <= extent.small_lent);
        for m in charts::small(length) {
            chart(&m, lends, tally)?;
        }
    }
    Ok(())
}

fn random_charts(
    count: u64,
    lent_every: u64,
    mut next: impl FnMut() -> Vec<usize>,
    tally: &mut Tally,
) -> Outcome {
    for i in 0..count {
        chart(&next(), Lends::around_if(i % lent_every == 0), tally)?;
    }
    Ok(())
}

fn token_counts(extent: &Extent, random: &mut Random, tally: &mut Tally) -> Outcome {
    for tokens in charts::TOKENS {
        for _ in 0..extent.counted {
            chart(&charts::of_tokens(random, tokens), Lends::JustDue, tally)?;
        }
        chart(
            &charts::of_long_tokens(random, tokens),
            Lends::JustDue,
            tally,
        )?;
    }
    Ok(())
}

/// As long as the domain allows, and one measure more, which every call refuses.
fn domain_edge(extent: &Extent, random: &mut Random, tally: &mut Tally) -> Outcome {
    for length in [1_048_575, 1_048_576] {
        for m in charts::long(random, length)
            .into_iter()
            .rev()
            .take(extent.long)
        {
            chart(&m, Lends::JustDue, tally)?;
        }
    }
    for m in charts::long(random, 1_048_577)
        .into_iter()
        .rev()
        .take(extent.long)
    {
        tally.charts += 1;
        owned::compare_refused(&m, tally)?;
        lent::compare_refused(&m, tally)?;
    }
    Ok(())
}
