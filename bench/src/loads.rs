//! The charts that are timed.

pub fn lcg(x: &mut u32) -> u32 {
    *x = x.wrapping_mul(1_664_525).wrapping_add(1_013_904_223);
    *x
}

/// Request A.14's load.
pub fn load(seed: u32, n: usize) -> Vec<u32> {
    let mut x = seed;
    (0..n).map(|_| (lcg(&mut x) >> 24) % 40).collect()
}

/// Runs of 1 to 46 measures of one class, gaps of 1 to 8.
pub fn typical(seed: u32, n: usize) -> Vec<u32> {
    let mut x = seed;
    let mut m = Vec::new();
    let least = [16u32, 20, 24, 32];
    while m.len() < n {
        let d = least[(lcg(&mut x) >> 24) as usize % 4];
        for _ in 0..1 + (lcg(&mut x) >> 24) % 46 {
            m.push(d + (lcg(&mut x) >> 24) % 4);
        }
        for _ in 0..1 + (lcg(&mut x) >> 24) % 8 {
            m.push((lcg(&mut x) >> 24) % 16);
        }
    }
    m.truncate(n);
    m
}

/// Classes 1 to 4 in turn.
fn alternating(n: usize) -> Vec<u32> {
    (0..n).map(|i| [16, 20, 24, 32][i % 4]).collect()
}

/// Charts of one length each. A single chart is called again and again, so that the processor learns its branches; of 64 loads called in turn it
/// learns no more than of a long one.
pub fn all() -> Vec<(&'static str, Vec<Vec<u32>>)> {
    vec![
        ("load of A.14, 1,024", vec![load(1, 1024)]),
        ("load of A.14, 64 of 1,024 in turn", (1..=64).map(|seed| load(seed, 1024)).collect()),
        ("load of A.14, 65,536", vec![load(1, 65_536)]),
        ("load of A.14, 1,048,576", vec![load(1, 1_048_576)]),
        ("typical 300", vec![typical(7, 300)]),
        ("typical, 64 of 300 in turn", (1..=64).map(|seed| typical(seed, 300)).collect()),
        ("typical 20,000", vec![typical(7, 20_000)]),
        ("typical 1,048,576", vec![typical(7, 1_048_576)]),
        ("one run of 1,024", vec![vec![16; 1024]]),
        ("quiet 1,024", vec![vec![0; 1024]]),
        ("alternating classes 1,024", vec![alternating(1024)]),
        ("alternating classes 1,048,576", vec![alternating(1_048_576)]),
    ]
}

/// Densities at the classes' edges, with long stretches and long gaps.
pub fn edges(seed: u32, n: usize) -> Vec<u32> {
    let mut x = seed;
    let edges = [0, 15, 16, 19, 20, 23, 24, 31, 32, 33, 1 << 31, u32::MAX];
    let mut m = Vec::new();
    while m.len() < n {
        let d = edges[(lcg(&mut x) >> 24) as usize % edges.len()];
        for _ in 0..1 + (lcg(&mut x) >> 24) % 6 * ((lcg(&mut x) >> 24) % 9) {
            m.push(d);
        }
    }
    m.truncate(n);
    m
}
