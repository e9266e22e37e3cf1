//! Note rows: the crate's reader beside a plain one.

use crate::densities;
use crate::plain_rows;
use crate::random::Random;
use crate::tally::{Outcome, Tally};
use crate::texts;
use puvolamie::{lent, Refused};

/// How much is compared: small texts by their length, random texts by their number, and long texts of each length.
pub struct Extent {
    pub small: usize,
    pub short: u64,
    pub full: u64,
    pub long: u64,
}

pub fn compare(extent: &Extent, random: &mut Random, tally: &mut Tally) -> Outcome {
    small_texts(extent.small, tally)?;
    let small = format!("all texts of up to {} bytes", extent.small);
    say(tally, &format!("{small}, alone and behind a row"));
    for text in texts::each_byte() {
        compare_text(&text, tally)?;
    }
    say(tally, "every byte at each place of a text");
    random_texts(extent.short, random, texts::short, tally)?;
    say(tally, "random note rows, some of them changed");
    random_texts(extent.full, random, texts::full, tally)?;
    say(tally, "measures of around 192 rows, some of them changed");
    for measures in [4095, 4096, 4097, 1_048_575, 1_048_576, 1_048_577] {
        let long = |random: &mut Random| texts::long(random, measures);
        random_texts(extent.long, random, long, tally)?;
    }
    say(
        tally,
        "note rows of around 4,096 measures and at the domain's edge",
    );
    Ok(())
}

fn say(tally: &Tally, what: &str) {
    println!(
        "{what}: {} texts, {} comparisons so far",
        tally.texts, tally.comparisons
    );
}

fn small_texts(most: usize, tally: &mut Tally) -> Outcome {
    for length in 0..=most {
        for text in texts::small(length) {
            compare_text(&text, tally)?;
            compare_text(&[b"0100\n", &text[..]].concat(), tally)?;
        }
    }
    Ok(())
}

/// Each as it is, and with up to three changes.
fn random_texts(
    count: u64,
    random: &mut Random,
    mut next: impl FnMut(&mut Random) -> Vec<u8>,
    tally: &mut Tally,
) -> Outcome {
    for _ in 0..count {
        let mut text = next(random);
        compare_text(&text, tally)?;
        for _ in 0..3 {
            texts::change(random, &mut text, texts::CHANGES);
            compare_text(&text, tally)?;
        }
    }
    Ok(())
}

fn compare_text(text: &[u8], tally: &mut Tally) -> Outcome {
    tally.texts += 1;
    let due = plain_rows::read(text);
    lent(text, &due, tally)
        .and_then(|()| owned(text, due, tally))
        .map_err(|difference| format!("{difference}\nin the text {}", texts::described(text)))
}

fn lent(text: &[u8], due: &Result<Vec<u32>, u32>, tally: &mut Tally) -> Outcome {
    let due = match due {
        Ok(densities) => Ok((densities.len(), &densities[..])),
        Err(number) => Err(*number),
    };
    let read = |densities: &mut [u32]| lent::read_note_rows(text, densities);
    densities::compare("lent read_note_rows", due, text.len() + 1, read, tally)
}

fn owned(text: &[u8], due: Result<Vec<u32>, u32>, tally: &mut Tally) -> Outcome {
    let wide = |densities: Vec<u32>| densities.into_iter().map(|d| d as usize).collect();
    let due = due.map(wide).map_err(Refused);
    tally.same("read_note_rows", puvolamie::read_note_rows(text), due)
}
