//! SN detailed texts: the crate's converter beside the original's standard texts, where a chart is at hand, and beside a plain
//! converter.

use crate::charts;
use crate::guarded::Guarded;
use crate::plain_sn_to_standard as plain;
use crate::random::Random;
use crate::small;
use crate::streams;
use crate::tally::{Outcome, Tally};
use crate::texts;
use puvolamie::{lent, Refused};
use std::collections::{BTreeMap, BTreeSet};

const MARK: u8 = 0xA5;

/// Bytes of runs and breaks, and one that stands in none.
const SMALL: &[u8] = b"012 ~\\=()*";

/// Bytes that a text is changed with, those next to its own among them.
const CHANGES: &[u8] = b"0123456789 ~\\=()*-/:<>[]}\0\n\t\xB0\xFF";

/// Lengths of runs and breaks; breaks are one longer.
const LENGTHS: [usize; 12] = [1, 1, 1, 2, 4, 9, 10, 31, 99, 100, 1000, 65_536];

/// How much is compared: charts and small texts by their length, random texts by their number.
pub struct Extent {
    pub charts: usize,
    pub small: usize,
    pub random: u64,
}

pub fn compare(extent: &Extent, random: &mut Random, tally: &mut Tally) -> Outcome {
    chart_texts(extent.charts, tally)?;
    say(
        tally,
        &format!(
            "the SN texts of all charts of up to {} measures",
            extent.charts
        ),
    );
    for length in 0..=extent.small {
        for text in small::lists(SMALL, length) {
            compare_text(&text, tally)?;
        }
    }
    each_byte(tally)?;
    say(
        tally,
        &format!(
            "all SN texts of up to {} bytes, and every byte at each place of one",
            extent.small
        ),
    );
    for _ in 0..extent.random {
        let mut text = inside(random);
        compare_text(&text, tally)?;
        for _ in 0..3 {
            texts::change(random, &mut text, CHANGES);
            compare_text(&text, tally)?;
        }
    }
    say(tally, "random SN texts, and each of them changed");
    for text in edge() {
        compare_text(&text, tally)?;
    }
    say(tally, "SN texts at the domain's edge");
    Ok(())
}

fn say(tally: &Tally, what: &str) {
    println!(
        "{what}: {} SN texts, {} comparisons so far",
        tally.sn_texts, tally.comparisons
    );
}

/// The standard texts of the charts that have an SN text, and the measures of the shortest of them.
#[derive(Default)]
struct Charts {
    standard: BTreeSet<String>,
    shortest: usize,
}

/// The text of each chart becomes the original's standard text wherever the call accepts. It is accepted only where all the
/// charts have one standard text, and undecided, if a longer chart is there too, only where they have several.
fn chart_texts(most: usize, tally: &mut Tally) -> Outcome {
    let mut all: BTreeMap<String, Charts> = BTreeMap::new();
    for length in 0..=most {
        for m in charts::small(length) {
            let sn = streams::generate_breakdown(&m, streams::BreakdownMode::Detailed);
            let standard = streams::stream_breakdown(&m, streams::StreamBreakdownLevel::Detailed);
            if let Ok(ours) = puvolamie::sn_to_standard(&sn) {
                tally.same("sn_to_standard of a chart's text", &ours, &standard)?;
            }
            let charts = all.entry(sn).or_insert_with(|| Charts {
                shortest: length,
                ..Charts::default()
            });
            charts.standard.insert(standard);
        }
    }
    for (sn, charts) in all {
        compare_text(sn.as_bytes(), tally)?;
        let several = charts.standard.len() > 1;
        match puvolamie::sn_to_standard(&sn) {
            Ok(_) => tally.same("charts of an accepted text differ", several, false)?,
            Err(refused) => {
                tally.same("a chart's own text", refused, Refused(19))?;
                if charts.shortest < most {
                    tally.same("charts of an undecided text differ", several, true)?;
                }
            }
        }
    }
    Ok(())
}

/// A short text, accepted, with every byte in turn at each of its places.
fn each_byte(tally: &mut Tally) -> Outcome {
    let text = b"~12~ ~3~ (45) 6 7 (2) \\8\\ (3) =90=";
    for at in 0..text.len() {
        for byte in 0..=255 {
            let mut changed = text.to_vec();
            changed[at] = byte;
            compare_text(&changed, tally)?;
        }
    }
    Ok(())
}

fn word(class: usize, length: usize) -> String {
    match class {
        0 => format!("({})", length + 1),
        1 => format!("{length}"),
        2 => format!("~{length}~"),
        3 => format!("\\{length}\\"),
        _ => format!("={length}="),
    }
}

/// Up to 150 runs, many texts with fewer; a neighbour of another class is rare.
fn inside(random: &mut Random) -> Vec<u8> {
    let most = random.one_of(&[3, 3, 8, 8, 20, 150]);
    let mut class = 1 + random.below(4);
    let mut words = Vec::new();
    for i in 0..=random.below(most) {
        if i > 0 && random.below(2) == 0 {
            words.push(word(0, random.one_of(&LENGTHS)));
            class = 1 + random.below(4);
        } else if random.below(20) == 0 {
            class = 1 + random.below(4);
        }
        words.push(word(class, random.one_of(&LENGTHS)));
    }
    words.join(" ").into_bytes()
}

/// Around 1,048,576 measures, and texts that are far too long.
fn edge() -> Vec<Vec<u8>> {
    let runs = |words: &[&str], count: usize| {
        let all = words.iter().cycle().take(count).copied();
        all.collect::<Vec<_>>().join(" ").into_bytes()
    };
    let mut texts = Vec::new();
    for count in [524_287, 524_288, 524_289] {
        texts.push(runs(&["1"], count));
        texts.push(runs(&["=1="], count));
    }
    for count in [262_143, 262_144, 262_145] {
        texts.push(runs(&["~2~", "(2)", "\\1\\", "(2)"], 2 * count + 1));
    }
    for count in [1_048_575, 1_048_576, 1_048_577, 2_000_001] {
        texts.push(runs(&["=1=", "~1~"], count));
        texts.push(runs(&["1", "~1~"], count));
    }
    texts.extend([b"9", b"0", b" ", b"(", b"~"].map(|byte| byte.repeat(5_000_000)));
    texts
}

fn compare_text(text: &[u8], tally: &mut Tally) -> Outcome {
    tally.sn_texts += 1;
    let due = plain::convert(text);
    lent(text, &due, tally)
        .and_then(|()| owned(text, due, tally))
        .map_err(|difference| format!("{difference}\nin the SN text {}", texts::described(text)))
}

/// Where the text is accepted, the slice has no place, one too few, one for each byte, and more; where it is refused, no place,
/// and enough.
fn lent(text: &[u8], due: &Result<Vec<u8>, u32>, tally: &mut Tally) -> Outcome {
    let what = "lent sn_to_standard";
    let rooms = match due {
        Ok(standard) => vec![0, standard.len() - 1, standard.len(), standard.len() + 3],
        Err(_) => vec![0, text.len() + 11],
    };
    for room in rooms {
        let (answer, written) = match due {
            Ok(standard) if room < standard.len() => (Err(Refused(4)), &[][..]),
            Ok(standard) => (Ok(standard.len()), &standard[..]),
            Err(number) => (Err(Refused(*number)), &[][..]),
        };
        let mut slice = Guarded::new(room, MARK);
        tally.same(what, lent::sn_to_standard(text, slice.lend()), answer)?;
        slice.compare(what, written, tally)?;
    }
    Ok(())
}

fn owned(text: &[u8], due: Result<Vec<u8>, u32>, tally: &mut Tally) -> Outcome {
    let Ok(sn) = std::str::from_utf8(text) else {
        return Ok(());
    };
    let string = |standard: Vec<u8>| String::from_utf8_lossy(&standard).into_owned();
    let due = due.map(string).map_err(Refused);
    tally.same("sn_to_standard", puvolamie::sn_to_standard(sn), due)
}
