//! Chart records: the crate's reader beside a plain one.

use crate::densities;
use crate::plain_record::{self, Record};
use crate::random::Random;
use crate::records;
use crate::tally::{Outcome, Tally};
use puvolamie::lent::{self, ChartRecord};
use puvolamie::print_sheet;

/// The most bytes that `sheet` takes.
const SHEET: usize = 16_384;

/// How much is compared: small records by their length, random records by their number, and long records of each length.
pub struct Extent {
    pub small: usize,
    pub random: u64,
    pub long: u64,
}

pub fn compare(extent: &Extent, random: &mut Random, tally: &mut Tally) -> Outcome {
    small_records(extent.small, tally)?;
    let small = format!("all records of up to {} bytes", extent.small);
    say(tally, &format!("{small}, alone and behind a name"));
    for _ in 0..extent.random {
        random_record(random, tally)?;
    }
    say(tally, "random records, whole, cut and changed");
    for _ in 0..extent.long {
        for measures in (SHEET - 12..SHEET).chain([1_048_575, 1_048_576, 1_048_577]) {
            cut_record(&records::long(random, measures), tally)?;
        }
    }
    say(
        tally,
        "records at the limit of `sheet` and at the domain's edge, whole and cut",
    );
    Ok(())
}

fn say(tally: &Tally, what: &str) {
    println!(
        "{what}: {} records, {} comparisons so far",
        tally.records, tally.comparisons
    );
}

fn small_records(most: usize, tally: &mut Tally) -> Outcome {
    for length in 0..=most {
        for record in records::small(length) {
            compare_record(&record, tally)?;
            compare_record(&[&[1, 0, 1, b'A'], &record[..]].concat(), tally)?;
        }
    }
    Ok(())
}

/// As it is, cut at its end and somewhere, and with a byte changed.
fn random_record(random: &mut Random, tally: &mut Tally) -> Outcome {
    let mut record = records::short(random);
    cut_record(&record, tally)?;
    for _ in 0..4 {
        compare_record(&record[..random.below(record.len())], tally)?;
    }
    let at = random.below(record.len());
    record[at] = random.next() as u8;
    compare_record(&record, tally)
}

/// As it is, cut behind each of its last bytes, and with a further field that is cut behind each of its bytes.
fn cut_record(record: &[u8], tally: &mut Tally) -> Outcome {
    for missing in 0..4.min(record.len()) {
        compare_record(&record[..record.len() - missing], tally)?;
    }
    for tag in [1, 2, 3] {
        for size in 1..=4 {
            compare_record(&[record, &[tag, 0, 2, 16][..size]].concat(), tally)?;
        }
    }
    Ok(())
}

fn compare_record(record: &[u8], tally: &mut Tally) -> Outcome {
    tally.records += 1;
    let due = plain_record::read(record);
    read(record, &due, tally)
        .and_then(|()| printed(record, due.err(), tally))
        .map_err(|difference| format!("{difference}\nin the record {}", records::described(record)))
}

fn read(record: &[u8], due: &Result<Record<'_>, u32>, tally: &mut Tally) -> Outcome {
    let answer = |due: &Record| ChartRecord {
        measures: due.densities.len(),
        name_start: 3,
        name_length: due.name.len(),
    };
    let due = match due {
        Ok(due) => Ok((answer(due), &due.densities[..])),
        Err(number) => Err(*number),
    };
    let read = |densities: &mut [u32]| lent::read_chart_record(record, densities);
    densities::compare("lent read_chart_record", due, record.len() + 1, read, tally)
}

/// The line that `sheet` prints for a refusal, of which question 13 comes first.
fn printed(record: &[u8], refused: Option<u32>, tally: &mut Tally) -> Outcome {
    let number = if record.len() > SHEET {
        Some(13)
    } else {
        refused
    };
    match number {
        Some(number) => {
            let due = format!("refused {number}\n").into_bytes();
            tally.same("print_sheet", print_sheet(record), due)
        }
        None => Ok(()),
    }
}
