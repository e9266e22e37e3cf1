//! The proved converter of SN texts beside the plain Rust: first that both answer the same, then how long each takes.
use crate::loads::lcg;
use crate::{cells, head, ours, plain_sn_to_standard, times};
use std::hint::black_box;

/// A number below `bound`, which is at most 65,536.
fn below(x: &mut u32, bound: usize) -> usize {
    (lcg(x) >> 16) as usize % bound
}

/// How a text is made: whether breaks part its runs rarely or often, whether runs behind a break change their class, and the longest run.
#[derive(Clone, Copy)]
struct Shape {
    breaks: usize,
    classes: usize,
    longest: usize,
}

fn word(class: usize, length: usize) -> String {
    let mark = ["", "", "~", "\\", "="][class];
    match class {
        0 => format!("({length})"),
        _ => format!("{mark}{length}{mark}"),
    }
}

/// So many runs; `breaks` of six gaps are breaks of 2 to 41, the others gaps of 1. All neighbours have one class, so the text is decided.
fn text(seed: u32, runs: usize, shape: Shape) -> Vec<u8> {
    let mut x = seed;
    let mut class = 1;
    let mut words = Vec::new();
    for i in 0..runs {
        if i > 0 && below(&mut x, 6) < shape.breaks {
            words.push(word(0, 2 + below(&mut x, 40)));
            class = 1 + below(&mut x, shape.classes);
        }
        words.push(word(class, 1 + below(&mut x, shape.longest)));
    }
    words.join(" ").into_bytes()
}

/// Two runs of different classes at the end: undecided.
fn undecided(mut text: Vec<u8>) -> Vec<u8> {
    text.extend(b" (2) 1 ~1~");
    text
}

const MIXED: Shape = Shape { breaks: 4, classes: 4, longest: 64 };
const ONE_CLASS: Shape = Shape { breaks: 3, classes: 1, longest: 64 };
const NO_BREAKS: Shape = Shape { breaks: 0, classes: 1, longest: 9 };

fn all() -> Vec<(&'static str, Vec<Vec<u8>>)> {
    let turns = |runs, shape| (1..=64).map(|seed| text(seed, runs, shape)).collect::<Vec<_>>();
    vec![
        ("1,000 runs, four classes, two gaps of three breaks", vec![text(1, 1000, MIXED)]),
        ("the same, 64 texts in turn", turns(1000, MIXED)),
        ("1,000 runs of class 1, half of the gaps breaks", vec![text(1, 1000, ONE_CLASS)]),
        ("the same, 64 texts in turn", turns(1000, ONE_CLASS)),
        ("1,000 runs of class 1, of 1 to 9 measures, no break", vec![text(1, 1000, NO_BREAKS)]),
        ("the same, 64 texts in turn", turns(1000, NO_BREAKS)),
        ("20 runs, four classes, 64 texts in turn", turns(20, MIXED)),
        ("1,000 runs, four classes, undecided", vec![undecided(text(1, 1000, MIXED))]),
    ]
}

/// Both on one text, with a slice whose left-over places must stay as they were, and with one that is a byte too short. The standard text's length.
fn same(sn: &[u8]) -> usize {
    let due = plain_sn_to_standard::convert(sn);
    let (refused, standard) = match &due {
        Ok(standard) => (0, &standard[..]),
        Err(number) => (*number, &[][..]),
    };
    let mut out = vec![0xAA; sn.len() + 11];
    let r = ours::sn_to_standard(sn, &mut out);
    assert_eq!((r.refused, r.length), (refused, standard.len()));
    assert!(&out[..r.length] == standard && out[r.length..].iter().all(|&b| b == 0xAA));
    if !standard.is_empty() {
        let short = &mut out[..standard.len() - 1];
        assert_eq!(ours::sn_to_standard(sn, short).refused, 4);
    }
    standard.len()
}

/// Short texts, whole, cut and undecided.
fn same_on_all() -> usize {
    let mut texts = 0;
    for seed in 0..3000 {
        let sn = text(seed, 1 + seed as usize % 200, [MIXED, ONE_CLASS, NO_BREAKS][seed as usize % 3]);
        same(&sn[..sn.len() * (seed as usize % 100) / 100]);
        same(&sn);
        same(&undecided(sn));
        texts += 3;
    }
    texts
}

/// Texts one after the other, with a slice as long as the text and with one just long enough, for which the text is measured first.
fn line(name: &str, texts: &[Vec<u8>]) {
    let due: Vec<usize> = texts.iter().map(|sn| same(sn)).collect();
    let most = texts.iter().map(Vec::len).max().unwrap_or(0);
    let (mut roomy, mut tight) = (vec![0; most], vec![0; most]);
    let t = times(&mut [
        Box::new(|| {
            for sn in texts {
                let _ = black_box(plain_sn_to_standard::convert(black_box(sn)));
            }
        }),
        Box::new(|| {
            for sn in texts {
                black_box(ours::sn_to_standard(black_box(sn), &mut roomy));
            }
        }),
        Box::new(|| {
            for (sn, &length) in texts.iter().zip(&due) {
                black_box(ours::sn_to_standard(black_box(sn), &mut tight[..length]));
            }
        }),
    ]);
    let bytes: usize = texts.iter().map(Vec::len).sum();
    println!("| {name} | {bytes} | {}", cells(&t, |ns| bytes as f64 / ns));
}

pub fn table() {
    println!("The same standard texts and refusals on {} SN texts and on those below.\n", same_on_all());
    println!("Bytes of SN text a ns, best (median) of the rounds; times faster than the Rust.\n");
    head(&["text", "bytes"], &["roomy".into(), "tight".into()]);
    for (name, texts) in all() {
        line(name, &texts);
    }
}
