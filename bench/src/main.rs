//! The proved pass beside the unchanged Rust: first that both answer the same, then how long each takes. Numbers: `numbers`. Note rows: `rows`. SN texts: `sn`.
mod loads;
#[allow(dead_code)]
#[path = "../../judge/src/math.rs"]
mod math;
mod numbers;
mod ours;
#[path = "../../rust/compare/src/plain_rows.rs"]
mod plain_rows;
#[path = "../../rust/compare/src/plain_sn_to_standard.rs"]
mod plain_sn_to_standard;
mod rows;
mod sn;
#[path = "../../judge/src/streams.rs"]
mod streams;
use ours::{Lent, Library, LIBRARIES};
use std::hint::black_box;
use std::time::Instant;
use streams::{RunDensity, Token};

fn parts(t: &Token) -> (u8, u32) {
    match *t {
        Token::Break(n) => (0, n as u32),
        Token::Run(RunDensity::Run16, n) => (1, n as u32),
        Token::Run(RunDensity::Run20, n) => (2, n as u32),
        Token::Run(RunDensity::Run24, n) => (3, n as u32),
        Token::Run(_, n) => (4, n as u32),
    }
}

/// All on one chart, with slices just long enough and with roomy ones, whose left-over places must stay as they were.
/// The number of tokens and of bytes.
fn same(m: &[u32]) -> (usize, usize) {
    let wide: Vec<usize> = m.iter().map(|&d| d as usize).collect();
    let mut tokens = Vec::new();
    let (c, sn, standard) = streams::compute_stream_outputs_with_scratch(&wide, &mut tokens);
    let counts = [c.run16_streams, c.run20_streams, c.run24_streams, c.run32_streams, c.total_breaks, c.sn_breaks];
    let texts = [sn.0, sn.1, sn.2, standard.0, standard.1, standard.2];
    let text = texts.concat();
    let (k, bytes) = (tokens.len(), text.len());
    for library in LIBRARIES {
        for mut lent in [Lent::new(k, bytes), Lent::roomy(m.len())] {
            let r = library.pass(m, &mut lent);
            assert_eq!((r.refused, r.counts, r.tokens), (0, counts, k));
            assert!(texts.iter().map(String::len).eq(r.lengths));
            assert!(&lent.out[..bytes] == text.as_bytes());
            assert!(lent.out[bytes..].iter().all(|&b| b == 0xAA));
            let pairs = lent.classes.iter().copied().zip(lent.lengths.iter().copied());
            assert!(tokens.iter().map(parts).eq(pairs.take(k)));
            assert!(lent.classes[k..].iter().all(|&c| c == 0xAA));
            assert!(lent.lengths[k..].iter().all(|&n| n == 0xAAAA));
        }
    }
    (k, bytes)
}

fn same_on_all() -> usize {
    let mut charts = 0;
    for n in 0..7u32 {
        for code in 0..5u32.pow(n) {
            let m: Vec<u32> = (0..n).map(|i| [0, 16, 20, 24, 32][(code / 5u32.pow(i) % 5) as usize]).collect();
            same(&m);
            charts += 1;
        }
    }
    for seed in 0..3000 {
        same(&loads::load(seed, seed as usize % 200));
        same(&loads::typical(seed, seed as usize % 400));
        same(&loads::edges(seed, seed as usize % 120));
        charts += 3;
    }
    charts
}

/// ns of each: all take turns, and the best and the median of the rounds are given.
fn times(works: &mut [Work]) -> Vec<(f64, f64)> {
    let rounds = 41;
    let reps: Vec<u64> = works
        .iter_mut()
        .map(|f| {
            f();
            let t = Instant::now();
            f();
            (1_000_000 / t.elapsed().as_nanos().max(1) as u64).clamp(1, 10_000)
        })
        .collect();
    let mut all = vec![Vec::new(); works.len()];
    for _ in 0..rounds {
        for (i, f) in works.iter_mut().enumerate() {
            let t = Instant::now();
            for _ in 0..reps[i] {
                f();
            }
            all[i].push(t.elapsed().as_nanos() as f64 / reps[i] as f64);
        }
    }
    all.iter_mut()
        .map(|ts| {
            ts.sort_by(f64::total_cmp);
            (ts[0], ts[rounds / 2])
        })
        .collect()
}

/// The cells of a row: the Rust's time, and then each of the others' and how often it goes into the Rust's. The best, and the median in parentheses.
fn cells(t: &[(f64, f64)], shown: impl Fn(f64) -> f64) -> String {
    let rust = t[0];
    let mut cells = format!("{:.2} ({:.2}) |", shown(rust.0), shown(rust.1));
    for ours in &t[1..] {
        cells += &format!(" {:.2} ({:.2}) | **{:.2}** ({:.2}) |", shown(ours.0), shown(ours.1), rust.0 / ours.0, rust.1 / ours.1);
    }
    cells
}

/// The head of a table: what stands before the Rust's time, and what each of the others' is called.
fn head(first: &[&str], others: &[String]) {
    let mut head = format!("| {} | Rust |", first.join(" | "));
    for other in others {
        head += &format!(" {other} | faster |");
    }
    println!("{head}\n|{}", "---|".repeat(first.len() + 1 + 2 * others.len()));
}

type Work<'a> = Box<dyn FnMut() + 'a>;

/// Charts of one length.
fn row(name: &str, charts: &[Vec<u32>]) {
    let due: Vec<(usize, usize)> = charts.iter().map(|m| same(m)).collect();
    let wide: Vec<Vec<usize>> = charts.iter().map(|m| m.iter().map(|&d| d as usize).collect()).collect();
    let mut scratch = Vec::new();
    let mut all: Vec<Work> = vec![Box::new(|| {
        for m in &wide {
            black_box(&streams::compute_stream_outputs_with_scratch(black_box(m), &mut scratch));
        }
    })];
    for library in LIBRARIES {
        all.extend(library.works(charts, &due));
    }
    let tokens: usize = due.iter().map(|d| d.0).sum();
    let measures: usize = charts.iter().map(Vec::len).sum();
    println!("| {name} | {tokens} | {}", cells(&times(&mut all), |ns| ns / measures as f64));
}

/// The charts whose name has the word.
fn table(only: &str) {
    println!("The same tokens, texts and six counts on {} charts and on those below.\n", same_on_all());
    println!("ns per measure, best (median) of the rounds; times faster than the Rust.\n");
    let slices = |library: &Library| ["roomy", "tight"].map(|slices| format!("{}, {slices} slices", library.name));
    head(&["chart", "tokens"], &LIBRARIES.iter().flat_map(slices).collect::<Vec<_>>());
    for (name, charts) in loads::all() {
        if name.contains(only) {
            row(name, &charts);
        }
    }
    println!();
}

/// With an argument, only the charts whose name has it, only the numbers ("numbers") or only the note rows ("rows").
fn main() {
    let only = std::env::args().nth(1).unwrap_or_default();
    if !["numbers", "rows", "sn"].contains(&only.as_str()) {
        table(&only);
    }
    if only.is_empty() || only == "numbers" {
        numbers::table();
    }
    if only.is_empty() || only == "rows" {
        rows::table();
    }
    if only.is_empty() || only == "sn" {
        sn::table();
    }
}
