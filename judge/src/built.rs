//! The built charts: families, each made for one rule and its boundaries. Some
//! of their charts are also among the small ones.

use crate::list::Items;

/// Densities of the four stream classes, the first of each.
const CLASSES: [u32; 4] = [16, 20, 24, 32];

/// Gaps at both sides of every boundary of the two notations.
const GAPS: [usize; 9] = [1, 2, 3, 4, 5, 31, 32, 33, 34];

/// Lengths at the changes of the number of digits.
const DIGIT_LENGTHS: [usize; 10] = [1, 9, 10, 11, 99, 100, 101, 999, 1000, 1001];

/// All families, in the order of the list.
pub fn charts() -> Vec<Items> {
    [
        charts_to_prove(),
        gaps_between_two_runs(),
        lead_ins_and_tails(),
        ends_around_a_gap(),
        chains_of_three(),
        chains_of_four(),
        class_changes_beside_a_gap(),
        run_lengths(),
        joined_lengths(),
        gap_lengths(),
        class_boundaries(),
        wide_densities(),
        mixed_densities(),
        quiet_charts(),
        look_alikes(),
        many_runs(),
        long_charts(),
    ]
    .concat()
}

/// Quiet measures.
fn quiet(count: usize) -> (u32, usize) {
    (0, count)
}

/// The cases of the paper's table, in its order.
fn charts_to_prove() -> Vec<Items> {
    vec![
        vec![],
        vec![(15, 1)],
        vec![(16, 1)],
        vec![(19, 1), (20, 1)],
        vec![(16, 1), quiet(1), (16, 1)],
        vec![(16, 1), quiet(4), (16, 1)],
        vec![(16, 1), quiet(5), (16, 1)],
        vec![(16, 1), quiet(32), (16, 1)],
        vec![(16, 1), quiet(33), (16, 1)],
        vec![(32, 1), quiet(2), (16, 1)],
        vec![quiet(2), (16, 1)],
        vec![quiet(1), (16, 1)],
        vec![(16, 2), quiet(1), (20, 2), quiet(3), (16, 1)],
    ]
}

/// Every sign, join and dropped gap, within one class and between two.
fn gaps_between_two_runs() -> Vec<Items> {
    let pairs = [
        (16, 16),
        (20, 20),
        (24, 24),
        (32, 32),
        (16, 20),
        (20, 16),
        (20, 24),
        (24, 32),
        (32, 16),
        (16, 32),
    ];
    let mut charts = Vec::new();
    for (first, second) in pairs {
        for gap in GAPS {
            charts.push(vec![(first, 2), quiet(gap), (second, 3)]);
        }
    }
    charts
}

/// Breaks before and after all streams: no text shows them.
fn lead_ins_and_tails() -> Vec<Items> {
    let lead_ins = GAPS.map(|count| vec![quiet(count), (20, 2)]);
    let tails = GAPS.map(|count| vec![(24, 2), quiet(count)]);
    [lead_ins, tails].concat()
}

/// Lead-in, inner gap and tail are three gaps of their own.
fn ends_around_a_gap() -> Vec<Items> {
    let mut charts = Vec::new();
    for lead_in in [0, 1, 2, 33] {
        for gap in [1, 2, 5, 33] {
            for tail in [0, 1, 2, 33] {
                charts.push(vec![
                    quiet(lead_in),
                    (16, 3),
                    quiet(gap),
                    (16, 2),
                    quiet(tail),
                ]);
            }
        }
    }
    charts
}

/// Joins that go on, or end at a sign or at another class.
fn chains_of_three() -> Vec<Items> {
    let classes = [
        [16, 16, 16],
        [20, 20, 16],
        [16, 24, 16],
        [32, 24, 24],
        [24, 32, 16],
    ];
    let mut charts = Vec::new();
    for [first, second, third] in classes {
        for left in [1, 2, 4, 5] {
            for right in [1, 2, 4, 5] {
                charts.push(vec![
                    (first, 1),
                    quiet(left),
                    (second, 2),
                    quiet(right),
                    (third, 3),
                ]);
            }
        }
    }
    charts
}

/// A join on each side of a change of class.
fn chains_of_four() -> Vec<Items> {
    let mut charts = Vec::new();
    for left in [1, 4, 5] {
        for middle in [1, 4, 5] {
            for right in [1, 4, 5] {
                charts.push(vec![
                    (20, 4),
                    quiet(left),
                    (20, 3),
                    quiet(middle),
                    (32, 2),
                    quiet(right),
                    (32, 1),
                ]);
            }
        }
    }
    charts
}

/// Two runs that touch, with a gap before or behind: the gap's neighbour
/// decides in SN texts, and standard texts see one piece.
fn class_changes_beside_a_gap() -> Vec<Items> {
    let mut charts = Vec::new();
    for gap in GAPS {
        charts.push(vec![(16, 2), (20, 1), quiet(gap), (20, 3)]);
        charts.push(vec![(16, 2), (20, 1), quiet(gap), (16, 3)]);
        charts.push(vec![(24, 3), quiet(gap), (24, 1), (32, 2)]);
        charts.push(vec![(24, 3), quiet(gap), (32, 1), (24, 2)]);
    }
    charts
}

/// Numbers of one to four digits in each class's signs.
fn run_lengths() -> Vec<Items> {
    let mut charts = Vec::new();
    for class in CLASSES {
        for length in DIGIT_LENGTHS {
            charts.push(vec![(class, length)]);
        }
    }
    charts
}

/// Starred runs whose joined length reaches a further digit.
fn joined_lengths() -> Vec<Items> {
    let mut charts = Vec::new();
    for class in CLASSES {
        for joined in [9, 10, 99, 100, 999, 1000] {
            let first = joined / 2;
            charts.push(vec![(class, first), quiet(1), (class, joined - first - 1)]);
        }
    }
    charts
}

/// Breaks whose number has one to four digits, and one that has no number.
fn gap_lengths() -> Vec<Items> {
    DIGIT_LENGTHS
        .map(|gap| vec![(16, 1), quiet(gap), (32, 1)])
        .to_vec()
}

/// The first and last density of each class, alone and beside one another.
fn class_boundaries() -> Vec<Items> {
    let densities = [15, 16, 19, 20, 23, 24, 31, 32, 255, u32::MAX];
    let mut charts = Vec::new();
    for density in densities {
        charts.push(vec![(density, 1)]);
    }
    for first in densities {
        for second in densities {
            charts.push(vec![(first, 1), (second, 1)]);
        }
    }
    charts
}

/// Densities that would change class if cut to 8, 16 or 31 bits.
fn wide_densities() -> Vec<Items> {
    let mut charts = Vec::new();
    for density in [256, 272, 65_536, 65_552, 2_147_483_648] {
        charts.push(vec![(density, 1)]);
        charts.push(vec![(density, 2), quiet(2), (16, 1)]);
    }
    charts
}

/// Runs and gaps of several densities: the class alone cuts tokens.
fn mixed_densities() -> Vec<Items> {
    vec![
        vec![(16, 1), (17, 1), (18, 2), (19, 1)],
        vec![(20, 1), (23, 2), (21, 1), (22, 1)],
        vec![(24, 1), (31, 2), (27, 1)],
        vec![(32, 1), (255, 1), (u32::MAX, 2), (33, 1)],
        vec![(16, 1), (0, 1), (15, 1), (19, 1)],
        vec![(16, 1), (15, 2), (0, 1), (7, 2), (19, 1)],
        vec![(1, 1), (14, 1), (23, 1), (8, 1), (15, 1)],
        vec![(1, 1), (40, 2), (8, 1), (100, 1), (15, 1)],
    ]
}

/// Charts without a stream measure.
fn quiet_charts() -> Vec<Items> {
    let mut charts = Vec::new();
    for density in [0, 15] {
        for length in [1, 2, 1000] {
            charts.push(vec![(density, length)]);
        }
    }
    charts.push(vec![(0, 1), (15, 1), (1, 1)]);
    charts
}

/// Neighbours of the list with one standard detailed text, or nearly one.
fn look_alikes() -> Vec<Items> {
    vec![
        vec![(16, 11), quiet(1), (16, 1)],
        vec![(16, 1), quiet(1), (16, 11)],
        vec![quiet(3), (32, 1), quiet(1), (24, 11)],
        vec![(20, 1), quiet(1), (16, 5), (32, 6), quiet(7)],
        vec![(20, 1), quiet(2), (16, 5), (32, 6), quiet(7)],
        vec![(20, 1), quiet(2), (16, 5), (32, 6), quiet(1), (16, 1)],
        vec![(16, 13)],
        vec![(20, 6), (24, 7)],
        vec![(20, 6), quiet(1), (24, 7)],
        vec![(20, 7), quiet(1), (24, 6)],
        vec![(20, 1), quiet(12), (24, 1)],
        vec![(20, 1), quiet(1), (24, 2), quiet(1), (24, 1)],
        vec![(20, 1), quiet(2), (24, 1), quiet(1), (24, 1)],
        vec![quiet(40)],
        vec![quiet(41)],
    ]
}

/// As many runs and gaps as a line has room for.
fn many_runs() -> Vec<Items> {
    vec![
        [(16, 1), quiet(1)].repeat(40),
        [(20, 1), quiet(2)].repeat(28),
        [(24, 1), quiet(5)].repeat(28),
        [(32, 1), quiet(33)].repeat(25),
        CLASSES.map(|class| (class, 1)).repeat(16),
        [(16, 1), quiet(1), (16, 1), quiet(4), (32, 1), quiet(2)].repeat(10),
    ]
}

/// The longest charts of the list, 4,096 measures each.
fn long_charts() -> Vec<Items> {
    vec![
        vec![(16, 4096)],
        vec![quiet(4096)],
        vec![quiet(4095), (32, 1)],
        vec![(24, 1), quiet(4095)],
        vec![(20, 1), quiet(4094), (20, 1)],
        vec![(16, 2047), quiet(1), (16, 2048)],
    ]
}
