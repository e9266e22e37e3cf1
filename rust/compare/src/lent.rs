//! The calls over lent slices: of every length around what is due, with guards.

use crate::guarded::Guarded;
use crate::original::{Original, LEVELS, MODES};
use crate::tally::{Outcome, Tally};
use puvolamie::lent::{self, Outputs};
use puvolamie::{Refused, RunDensity, StreamSegment, Token};

const MARK: u8 = 0xA5;
const MARK_LENGTH: u32 = 0xA5A5_A5A5;
const MARK_SEGMENT: StreamSegment = StreamSegment {
    start: 77,
    end: 78,
    is_break: true,
};

/// No place, and every number of places around `due`.
fn rooms(due: usize) -> Vec<usize> {
    let mut rooms = vec![0];
    rooms.extend(due.saturating_sub(3).max(1)..=due + 3);
    rooms
}

fn densities(m: &[usize]) -> Vec<u32> {
    m.iter()
        .map(|&d| u32::try_from(d).unwrap_or(u32::MAX))
        .collect()
}

fn class_number(class: RunDensity) -> u8 {
    match class {
        RunDensity::Break => 0,
        RunDensity::Run16 => 1,
        RunDensity::Run20 => 2,
        RunDensity::Run24 => 3,
        RunDensity::Run32 => 4,
    }
}

fn class_and_length(token: &Token) -> (u8, u32) {
    match *token {
        Token::Run(class, length) => (class_number(class), length as u32),
        Token::Break(length) => (0, length as u32),
    }
}

pub fn compare(m: &[usize], original: &Original, tally: &mut Tally) -> Outcome {
    let m = &densities(m);
    counts(m, original, tally)?;
    board_counts(m, original, tally)?;
    read_off(m, original, tally)?;
    one_text(m, original, tally)?;
    three_texts(m, original, tally)?;
    segments(m, original, &rooms(original.segments.len()), tally)?;
    labels(m, original, tally)?;
    passes(m, original, tally)
}

/// With slices of just what is due, for charts that are long; around it for the counts line for boards, which is short.
pub fn compare_just_due(m: &[usize], original: &Original, tally: &mut Tally) -> Outcome {
    let m = &densities(m);
    let due = due_of(original);
    counts(m, original, tally)?;
    board_counts(m, original, tally)?;
    segments(m, original, &[original.segments.len()], tally)?;
    pass(
        m,
        &due,
        [due.classes.len(), due.lengths.len(), due.text.len()],
        tally,
    )?;
    if !due.classes.is_empty() {
        pass(
            m,
            &due,
            [due.classes.len(), due.lengths.len() - 1, due.text.len()],
            tally,
        )?;
    }
    pass(
        m,
        &due,
        [due.classes.len(), due.lengths.len(), due.text.len() - 1],
        tally,
    )
}

/// Counts, of this chart and of the one that has the least density of each measure's class.
fn counts(m: &[u32], original: &Original, tally: &mut Tally) -> Outcome {
    let due = Ok(original.counts);
    let ours = lent::compute_stream_counts(m);
    tally.same("lent compute_stream_counts", ours, due)?;
    let least = |&d: &u32| [32, 24, 20, 16].into_iter().find(|&least| least <= d);
    let same_classes: Vec<u32> = m.iter().map(|d| least(d).unwrap_or(0)).collect();
    let ours = lent::compute_stream_counts(&same_classes);
    tally.same("counts of equal classes", ours, due)
}

fn board_counts(m: &[u32], original: &Original, tally: &mut Tally) -> Outcome {
    for room in rooms(original.board.len()) {
        let mut out = Guarded::new(room, MARK);
        let r = lent::board_counts(m, out.lend());
        out.compare_text("lent board_counts", r, &original.board, tally)?;
    }
    Ok(())
}

/// Active part, share, alike, and tokens of the whole chart by the view and by number.
fn read_off(m: &[u32], original: &Original, tally: &mut Tally) -> Outcome {
    let active = original
        .active
        .map_or(&m[..0], |(first, last)| &m[first..=last]);
    tally.same("active_range", lent::active_range(m), active)?;
    let share = original.share().ok_or(Refused(7));
    tally.same("share", lent::share(m), share)?;
    tally.same("share of the active part", lent::share(active), share)?;
    let flat: Vec<u32> = active
        .iter()
        .map(|&d| if d < 16 { 7 } else { 40 })
        .collect();
    tally.same("alike", lent::alike(m, &flat), Ok(true))?;
    let longer = [m, &[0, 16]].concat();
    tally.same(
        "alike, with a piece more",
        lent::alike(m, &longer),
        Ok(false),
    )?;
    let view: Vec<Token> = lent::stream_tokens(m).into_iter().flatten().collect();
    tally.same("tokens of the view", &view, &original.all_tokens)?;
    for k in 0..original.all_tokens.len().min(8) + 2 {
        let token = original.all_tokens.get(k).copied();
        tally.same("nth_token", lent::nth_token(m, k), Ok(token))?;
    }
    for k in 0..original.segments.len().min(8) + 2 {
        let segment = original.segments.get(k).copied();
        tally.same("segment_at", lent::segment_at(m, k), Ok(segment))?;
    }
    Ok(())
}

fn one_text(m: &[u32], original: &Original, tally: &mut Tally) -> Outcome {
    for ((mode, _), due) in MODES.into_iter().zip(&original.sn) {
        for room in rooms(due.len()) {
            let mut out = Guarded::new(room, MARK);
            let r = lent::generate_breakdown(m, mode, out.lend());
            out.compare_text("lent generate_breakdown", r, due, tally)?;
        }
    }
    for ((level, _), due) in LEVELS.into_iter().zip(&original.standard) {
        for room in rooms(due.len()) {
            let mut out = Guarded::new(room, MARK);
            let r = lent::stream_breakdown(m, level, out.lend());
            out.compare_text("lent stream_breakdown", r, due, tally)?;
        }
    }
    Ok(())
}

/// The lengths of three texts, checked against those due, as the length of all.
fn whole(
    answer: Result<[usize; 3], Refused>,
    due: &[String],
    tally: &mut Tally,
) -> Result<Result<usize, Refused>, String> {
    if let Ok(lengths) = answer {
        let each: Vec<usize> = due.iter().map(String::len).collect();
        tally.same("lengths of three texts", &lengths[..], &each[..])?;
    }
    Ok(answer.map(|lengths| lengths.iter().sum()))
}

fn three_texts(m: &[u32], original: &Original, tally: &mut Tally) -> Outcome {
    let sn = original.sn.concat();
    for room in rooms(sn.len()) {
        let mut out = Guarded::new(room, MARK);
        let r = lent::generate_breakdowns(m, out.lend());
        let length = whole(r, &original.sn, tally)?;
        out.compare_text("lent generate_breakdowns", length, &sn, tally)?;
    }
    let standard = original.standard[..3].concat();
    for room in rooms(standard.len()) {
        let mut out = Guarded::new(room, MARK);
        let r = lent::stream_breakdowns(m, out.lend());
        let length = whole(r, &original.standard[..3], tally)?;
        out.compare_text("lent stream_breakdowns", length, &standard, tally)?;
    }
    Ok(())
}

fn segments(m: &[u32], original: &Original, rooms: &[usize], tally: &mut Tally) -> Outcome {
    let due = &original.segments[..];
    for &room in rooms {
        let mut out = Guarded::new(room, MARK_SEGMENT);
        let r = lent::stream_sequences(m, out.lend());
        let fits = due.len() <= room;
        let answer = if fits { Ok(due.len()) } else { Err(Refused(3)) };
        tally.same("lent stream_sequences", r, answer)?;
        out.compare("lent stream_sequences", if fits { due } else { &[] }, tally)?;
    }
    Ok(())
}

/// At each width around a level's length, with a slice that is as long as the text, and one that is shorter.
fn labels(m: &[u32], original: &Original, tally: &mut Tally) -> Outcome {
    for width in original.standard.iter().flat_map(|text| rooms(text.len())) {
        let Some((level, due)) = original.label(width) else {
            let mut out = Guarded::new(40, MARK);
            tally.same(
                "no label fits",
                lent::label(m, width, out.lend()),
                Err(Refused(6)),
            )?;
            out.compare("no label fits", &[], tally)?;
            continue;
        };
        for room in [due.len() - 1, due.len(), due.len() + 2] {
            let mut out = Guarded::new(room, MARK);
            let r = lent::label(m, width, out.lend());
            if let Ok((shown, _)) = r {
                tally.same("the label's level", shown, level)?;
            }
            out.compare_text("label", r.map(|(_, length)| length), due, tally)?;
        }
    }
    Ok(())
}

/// What the pass writes and answers.
struct Due {
    classes: Vec<u8>,
    lengths: Vec<u32>,
    text: String,
    outputs: Outputs,
}

fn due_of(original: &Original) -> Due {
    let (classes, lengths) = original.tokens.iter().map(class_and_length).unzip();
    let texts: Vec<&String> = original.sn.iter().chain(&original.standard[..3]).collect();
    let mut each = [0; 6];
    for (length, text) in each.iter_mut().zip(&texts) {
        *length = text.len();
    }
    let outputs = Outputs {
        counts: original.counts,
        tokens: original.tokens.len(),
        lengths: each,
    };
    Due {
        classes,
        lengths,
        text: texts.into_iter().map(String::as_str).collect(),
        outputs,
    }
}

/// One slice at a time varied around what is due, the others exact; and all three roomy.
fn passes(m: &[u32], original: &Original, tally: &mut Tally) -> Outcome {
    let due = due_of(original);
    let (tokens, bytes) = (due.classes.len(), due.text.len());
    for room in rooms(tokens) {
        pass(m, &due, [room, tokens, bytes], tally)?;
        pass(m, &due, [tokens, room, bytes], tally)?;
        pass(m, &due, [room, room, 0], tally)?;
    }
    for room in rooms(bytes) {
        pass(m, &due, [tokens, tokens, room], tally)?;
    }
    let roomy = 17 * m.len() + 33;
    for room in [roomy - 1, roomy, roomy + 1] {
        pass(m, &due, [m.len(), m.len() + 1, room], tally)?;
    }
    Ok(())
}

fn pass(m: &[u32], due: &Due, rooms: [usize; 3], tally: &mut Tally) -> Outcome {
    let mut classes = Guarded::new(rooms[0], MARK);
    let mut lengths = Guarded::new(rooms[1], MARK_LENGTH);
    let mut out = Guarded::new(rooms[2], MARK);
    let r = lent::compute_stream_outputs(m, classes.lend(), lengths.lend(), out.lend());
    if rooms[0].min(rooms[1]) < due.classes.len() {
        tally.same("a pass with few token places", r, Err(Refused(2)))?;
    } else if rooms[2] < due.text.len() {
        tally.same("a pass with few bytes", r, Err(Refused(4)))?;
    } else {
        tally.same("lent compute_stream_outputs", r, Ok(due.outputs))?;
    }
    let accepted = r.is_ok();
    let class_due = if accepted { &due.classes[..] } else { &[] };
    let length_due = if accepted { &due.lengths[..] } else { &[] };
    let text_due = if accepted { due.text.as_bytes() } else { &[] };
    classes.compare("classes of tokens", class_due, tally)?;
    lengths.compare("lengths of tokens", length_due, tally)?;
    out.compare("texts of the pass", text_due, tally)
}

/// A chart of too many measures: the refusal 1, and nothing written.
pub fn compare_refused(m: &[usize], tally: &mut Tally) -> Outcome {
    let m = &densities(m);
    refused_readings(m, tally)?;
    refused_board_counts(m, tally)?;
    let mut classes = Guarded::new(m.len(), MARK);
    let mut lengths = Guarded::new(m.len(), MARK_LENGTH);
    let mut out = Guarded::new(17 * m.len() + 33, MARK);
    let mut places = Guarded::new(m.len(), MARK_SEGMENT);
    let pass = lent::compute_stream_outputs(m, classes.lend(), lengths.lend(), out.lend());
    tally.too_many("the pass", pass)?;
    tally.too_many("segments", lent::stream_sequences(m, places.lend()))?;
    tally.too_many("SN texts", lent::generate_breakdowns(m, out.lend()))?;
    tally.too_many("standard texts", lent::stream_breakdowns(m, out.lend()))?;
    for (mode, _) in MODES {
        tally.too_many("SN text", lent::generate_breakdown(m, mode, out.lend()))?;
    }
    for (level, _) in LEVELS {
        let text = lent::stream_breakdown(m, level, out.lend());
        tally.too_many("standard text", text)?;
    }
    tally.too_many("label", lent::label(m, 11, out.lend()))?;
    classes.compare("classes", &[], tally)?;
    lengths.compare("lengths", &[], tally)?;
    places.compare("segments", &[], tally)?;
    out.compare("texts", &[], tally)
}

/// Question 1 comes before question 4.
fn refused_board_counts(m: &[u32], tally: &mut Tally) -> Outcome {
    for room in rooms(64) {
        let mut out = Guarded::new(room, MARK);
        let r = lent::board_counts(m, out.lend());
        tally.too_many("lent board_counts", r)?;
        out.compare("lent board_counts", &[], tally)?;
    }
    Ok(())
}

/// The calls that write nothing, on a chart of too many measures.
fn refused_readings(m: &[u32], tally: &mut Tally) -> Outcome {
    tally.too_many("counts", lent::compute_stream_counts(m))?;
    tally.too_many("share", lent::share(m))?;
    tally.too_many("alike, first", lent::alike(m, &[]))?;
    tally.too_many("alike, second", lent::alike(&[], m))?;
    tally.too_many("token", lent::nth_token(m, 0))?;
    tally.too_many("segment", lent::segment_at(m, 0))?;
    tally.same("view", lent::stream_tokens(m).is_err(), true)
}
