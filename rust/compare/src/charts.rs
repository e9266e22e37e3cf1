//! The charts that are compared.

use crate::random::Random;
use crate::small;

/// Densities of a break and of the four stream classes.
const SMALL: [usize; 5] = [0, 16, 20, 24, 32];

/// The first and the last densities of each class, breaks first; several would change class if cut to fewer bits.
const CLASSES: [&[usize]; 5] = [
    &[0, 1, 14, 15],
    &[16, 17, 19],
    &[20, 23],
    &[24, 25, 31],
    &[
        32,
        33,
        255,
        256,
        65_536,
        4_294_967_295,
        4_294_967_296,
        4_294_967_312,
        usize::MAX,
    ],
];

/// Gaps at both sides of every boundary of the two notations, and of the numbers of digits.
const GAPS: [usize; 18] = [1, 1, 1, 2, 2, 3, 4, 4, 5, 5, 6, 9, 10, 31, 32, 33, 34, 100];

/// Lead-ins and tails, none among them.
const ENDS: [usize; 12] = [0, 0, 0, 1, 2, 3, 4, 5, 31, 32, 33, 34];

/// Lengths of runs, around the powers of ten.
const RUNS: [usize; 24] = [
    1, 1, 1, 1, 2, 2, 3, 3, 4, 5, 6, 7, 8, 9, 10, 11, 12, 15, 48, 49, 98, 99, 100, 101,
];

/// Lengths that are rarer, since such charts are long.
const LONG_RUNS: [usize; 8] = [498, 499, 998, 999, 1000, 1001, 9999, 10_000];

/// All charts of `length` measures that have the small densities alone.
pub fn small(length: usize) -> impl Iterator<Item = Vec<usize>> {
    small::lists(&SMALL, length)
}

/// Runs and gaps, with a lead-in and a tail.
pub fn shaped(random: &mut Random) -> Vec<usize> {
    let mut m = Vec::new();
    let lead_in = random.one_of(&ENDS);
    push(&mut m, random, 0, lead_in);
    let mut class = 1 + random.below(4);
    for _ in 0..random.below(9) {
        let length = run_length(random);
        push(&mut m, random, class, length);
        if random.below(5) != 0 {
            let gap = random.one_of(&GAPS);
            push(&mut m, random, 0, gap);
        }
        if random.below(2) == 0 {
            class = 1 + random.below(4);
        }
    }
    let tail = random.one_of(&ENDS);
    push(&mut m, random, 0, tail);
    m
}

fn run_length(random: &mut Random) -> usize {
    match random.below(200) {
        0 => random.one_of(&LONG_RUNS),
        1..=40 => random.one_of(&RUNS),
        _ => 1 + random.below(6),
    }
}

/// So many measures of a class, of any of its densities.
fn push(m: &mut Vec<usize>, random: &mut Random, class: usize, measures: usize) {
    for _ in 0..measures {
        m.push(random.one_of(CLASSES[class]));
    }
}

/// Up to 12 measures of any class.
pub fn scattered(random: &mut Random) -> Vec<usize> {
    let mut m = Vec::new();
    for _ in 0..random.below(13) {
        let class = random.below(5);
        push(&mut m, random, class, 1);
    }
    m
}

/// Numbers of tokens at both sides of those where the pass changes its way of writing texts.
pub const TOKENS: [usize; 8] = [1, 2, 87, 88, 89, 90, 8192, 8193];

/// A chart of so many tokens, behind a lead-in and before a tail.
pub fn of_tokens(random: &mut Random, tokens: usize) -> Vec<usize> {
    let mut m = Vec::new();
    let lead_in = random.one_of(&ENDS);
    push(&mut m, random, 0, lead_in);
    let mut last = 0;
    for i in 0..tokens {
        let class = other_class(random, last, i + 1 == tokens);
        let length = match class {
            0 => random.one_of(&GAPS),
            _ => run_length(random),
        };
        push(&mut m, random, class, length);
        last = class;
    }
    let tail = random.one_of(&ENDS);
    push(&mut m, random, 0, tail);
    m
}

/// .. as long as the domain allows, all tokens equally long.
pub fn of_long_tokens(random: &mut Random, tokens: usize) -> Vec<usize> {
    let mut m = Vec::new();
    let mut last = 0;
    for i in 0..tokens {
        last = other_class(random, last, i + 1 == tokens);
        push(&mut m, random, last, 1_048_576 / tokens);
    }
    m
}

/// A class that may stand behind the class `last`; the first and the last token are runs.
fn other_class(random: &mut Random, last: usize, run: bool) -> usize {
    loop {
        let class = random.below(5);
        if class != last && !(run && class == 0) {
            return class;
        }
    }
}

/// Charts of a length at the domain's edge: quiet, one run, one stream measure behind a lead-in, one before a tail, one gap,
/// alternating classes, runs and gaps of 1 and 2, and random ones.
pub fn long(random: &mut Random, length: usize) -> Vec<Vec<usize>> {
    let cycle = |items: &[usize]| items.iter().copied().cycle().take(length).collect();
    let mut mixed = Vec::new();
    while mixed.len() < length {
        mixed.extend(shaped(random));
    }
    mixed.truncate(length);
    let mut led_in = vec![0; length];
    led_in[length - 1] = 24;
    let mut with_tail = vec![0; length];
    with_tail[0] = 20;
    let mut one_gap = led_in.clone();
    one_gap[0] = 16;
    let scattered = (0..length).map(|_| random.one_of(&SMALL)).collect();
    vec![
        cycle(&[0]),
        cycle(&[32]),
        led_in,
        with_tail,
        one_gap,
        cycle(&[16, 20]),
        cycle(&[24, 0]),
        cycle(&[16, 0, 0, 20, 0]),
        mixed,
        scattered,
    ]
}

/// A chart as stretches of one density, cut off where it is long.
pub fn described(m: &[usize]) -> String {
    let stretches = m.chunk_by(|a, b| a == b).take(60);
    let words: Vec<String> = stretches.map(|s| format!("{}x{}", s[0], s.len())).collect();
    format!("({} measures) {}", m.len(), words.join(" "))
}
