//! The proved calls. A slice is passed as pointer and length.
use crate::Work;
use std::hint::black_box;

#[repr(C)]
pub struct Written {
    pub refused: u32,
    pub length: usize,
}

/// What the pass answers. The counts are six numbers in a library from before request A.6, eight since.
#[repr(C)]
pub struct Answer<const N: usize> {
    pub refused: u32,
    pub counts: [u32; N],
    pub tokens: usize,
    pub lengths: [usize; 6],
}

#[repr(C)]
pub struct RowsAnswer {
    pub refused: u32,
    pub measures: usize,
}

type Pass<const N: usize> = unsafe extern "C" fn(*const u32, usize, *mut u8, usize, *mut u32, usize, *mut u8, usize) -> Answer<N>;

/// The calls of one build of the library.
pub struct Library {
    pub name: &'static str,
    push_u64: fn(&mut [u8], u64) -> Written,
    push_all: fn(&[u64], &mut [u8]),
    pass: fn(&[u32], &mut Lent) -> Answer<6>,
    works: for<'a> fn(&'a [Vec<u32>], &[(usize, usize)]) -> [Work<'a>; 2],
}

// The sixth register would hold the second half of `lengths`, and Rust's pair starts behind it: so the slices are passed part by part.
// In `push_all` each library has a loop of its own, which calls by name: of one loop that calls them all by address the processor predicts
// the first best. Its numbers have the width 0, which a library from before request A.7 does not take.
macro_rules! library {
    ($library:ident, $name:literal, $counts:expr, $push_u64:ident($($width:ident: $kind:ty = $value:expr)?), $pass:ident) => {
        extern "C" {
            fn $push_u64(out: *mut u8, out_len: usize, n: u64 $(, $width: $kind)?) -> Written;
            fn $pass(
                m: *const u32,
                m_len: usize,
                classes: *mut u8,
                classes_len: usize,
                lengths: *mut u32,
                lengths_len: usize,
                out: *mut u8,
                out_len: usize,
            ) -> Answer<{ $counts }>;
        }

        const $library: Library = {
            fn push_u64(out: &mut [u8], n: u64) -> Written {
                unsafe { $push_u64(out.as_mut_ptr(), out.len(), n $(, $value)?) }
            }

            Library {
                name: $name,
                push_u64,
                push_all: |numbers, out| push_each(numbers, out, push_u64),
                pass: |m, lent| first_six(call($pass, m, lent)),
                works: |charts, due| works($pass, charts, due),
            }
        };
    };
}

library!(OURS, "ours", 8, pv_push_u64(width: u32 = 0), pv_compute_stream_outputs);
#[cfg(before)]
const BEFORE_COUNTS: usize = if cfg!(six_counts_before) { 6 } else { 8 };
#[cfg(all(before, no_width_before))]
library!(BEFORE, "before", BEFORE_COUNTS, before_pv_push_u64(), before_pv_compute_stream_outputs);
#[cfg(all(before, not(no_width_before)))]
library!(BEFORE, "before", BEFORE_COUNTS, before_pv_push_u64(width: u32 = 0), before_pv_compute_stream_outputs);

/// That of the commit that `run.sh --before` names, if it does, and this one.
pub const LIBRARIES: &[Library] = &[
    #[cfg(before)]
    BEFORE,
    OURS,
];

extern "C" {
    fn pv_read_note_rows(text: *const u8, text_len: usize, densities: *mut u32, densities_len: usize) -> RowsAnswer;
    fn pv_sn_to_standard(sn: *const u8, sn_len: usize, out: *mut u8, out_len: usize) -> Written;
}

/// What the pass is lent.
pub struct Lent {
    pub classes: Vec<u8>,
    pub lengths: Vec<u32>,
    pub out: Vec<u8>,
}

impl Lent {
    pub fn new(tokens: usize, bytes: usize) -> Self {
        Lent {
            classes: vec![0xAA; tokens],
            lengths: vec![0xAAAA; tokens],
            out: vec![0xAA; bytes],
        }
    }

    /// A place for each measure, and as many bytes as the texts of so many measures can have.
    pub fn roomy(measures: usize) -> Self {
        Self::new(measures, 17 * measures + 33)
    }
}

impl Library {
    pub fn push_u64(&self, out: &mut [u8], n: u64) -> Written {
        (self.push_u64)(out, n)
    }

    /// The numbers one behind the other.
    pub fn push_all(&self, numbers: &[u64], out: &mut [u8]) {
        (self.push_all)(numbers, out);
    }

    /// The pass, with the six counts that the Rust has.
    pub fn pass(&self, m: &[u32], lent: &mut Lent) -> Answer<6> {
        (self.pass)(m, lent)
    }

    /// What is timed: the pass on one chart after the other, with roomy slices and with tight ones.
    pub fn works<'a>(&self, charts: &'a [Vec<u32>], due: &[(usize, usize)]) -> [Work<'a>; 2] {
        (self.works)(charts, due)
    }
}

/// Numbers one behind the other, each by `push`.
pub fn push_each(numbers: &[u64], out: &mut [u8], push: impl Fn(&mut [u8], u64) -> Written) {
    let mut at = 0;
    for &n in numbers {
        at += push(&mut out[at..], n).length;
    }
}

fn call<const N: usize>(pass: Pass<N>, m: &[u32], lent: &mut Lent) -> Answer<N> {
    let Lent { classes, lengths, out } = lent;
    unsafe {
        pass(
            m.as_ptr(),
            m.len(),
            classes.as_mut_ptr(),
            classes.len(),
            lengths.as_mut_ptr(),
            lengths.len(),
            out.as_mut_ptr(),
            out.len(),
        )
    }
}

fn first_six<const N: usize>(answer: Answer<N>) -> Answer<6> {
    Answer {
        refused: answer.refused,
        counts: std::array::from_fn(|i| answer.counts[i]),
        tokens: answer.tokens,
        lengths: answer.lengths,
    }
}

/// No answer is copied, here and for the Rust: the time is to be that of the calls, however large their answers.
fn works<'a, const N: usize>(pass: Pass<N>, charts: &'a [Vec<u32>], due: &[(usize, usize)]) -> [Work<'a>; 2] {
    let mut roomy = Lent::roomy(charts[0].len());
    let mut tight: Vec<Lent> = due.iter().map(|&(tokens, bytes)| Lent::new(tokens, bytes)).collect();
    [
        Box::new(move || {
            for m in charts {
                black_box(&call(pass, black_box(m), &mut roomy));
            }
        }),
        Box::new(move || {
            for (m, lent) in charts.iter().zip(&mut tight) {
                black_box(&call(pass, black_box(m), lent));
            }
        }),
    ]
}

pub fn push_u64_padded(out: &mut [u8], n: u64, width: u32) -> Written {
    unsafe { pv_push_u64(out.as_mut_ptr(), out.len(), n, width) }
}

pub fn read_note_rows(text: &[u8], densities: &mut [u32]) -> RowsAnswer {
    unsafe { pv_read_note_rows(text.as_ptr(), text.len(), densities.as_mut_ptr(), densities.len()) }
}

pub fn sn_to_standard(sn: &[u8], out: &mut [u8]) -> Written {
    unsafe { pv_sn_to_standard(sn.as_ptr(), sn.len(), out.as_mut_ptr(), out.len()) }
}
