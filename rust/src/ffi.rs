//! The calls of the static library, each behind a safe function. The only unsafe code of the crate.
//!
//! What each call needs holds of any slices: pointers and lengths are those of live slices, and a mutable one overlaps no other.

use crate::{StreamCounts, StreamSegment};

#[repr(C)]
pub struct Written {
    pub refused: u32,
    pub length: usize,
}

#[repr(C)]
pub struct ThreeWritten {
    pub refused: u32,
    pub lengths: [usize; 3],
}

#[repr(C)]
pub struct CountsAnswer {
    pub refused: u32,
    pub counts: StreamCounts,
}

#[repr(C)]
pub struct StreamOutputs {
    pub refused: u32,
    pub counts: StreamCounts,
    pub tokens: usize,
    pub lengths: [usize; 6],
}

#[repr(C)]
pub struct ShareAnswer {
    pub refused: u32,
    pub share: u32,
}

#[repr(C)]
pub struct AlikeAnswer {
    pub refused: u32,
    pub alike: bool,
}

#[repr(C)]
pub struct ActiveRange {
    pub start: usize,
    pub length: usize,
}

#[repr(C)]
pub struct SegmentsAnswer {
    pub refused: u32,
    pub count: usize,
}

#[repr(C)]
pub struct NthSegment {
    pub refused: u32,
    pub found: bool,
    pub segment: StreamSegment,
}

#[repr(C)]
pub struct ViewToken {
    pub ended: bool,
    pub class: u8,
    pub length: u32,
}

#[repr(C)]
pub struct NthToken {
    pub refused: u32,
    pub token: ViewToken,
}

#[repr(C)]
pub struct LabelWritten {
    pub refused: u32,
    pub level: u32,
    pub length: usize,
}

#[repr(C)]
pub struct PairPart {
    pub second: bool,
    pub length: usize,
}

#[repr(C)]
pub struct RecordAnswer {
    pub refused: u32,
    pub measures: usize,
    pub name_start: usize,
    pub name_length: usize,
}

#[repr(C)]
pub struct RowsAnswer {
    pub refused: u32,
    pub measures: usize,
}

#[repr(C)]
pub struct Sheet {
    pub bytes: [u8; 66048],
    pub length: usize,
}

/// Declares a call and its safe form: slices first, each passed as pointer and length, then plain values.
macro_rules! calls {
    ($(fn $name:ident as $symbol:ident(
        $([$slice:ident: $element:ty])* $({$place:ident: $written:ty})* $($value:ident: $kind:ty),*
    ) -> $answer:ty;)*) => {
        extern "C" {
            $(fn $symbol(
                $($slice: *const $element, _: usize,)* $($place: *mut $written, _: usize,)* $($value: $kind),*
            ) -> $answer;)*
        }
        $(pub fn $name($($slice: &[$element],)* $($place: &mut [$written],)* $($value: $kind),*) -> $answer {
            // SAFETY: see the module's comment.
            unsafe {
                $symbol($($slice.as_ptr(), $slice.len(),)* $($place.as_mut_ptr(), $place.len(),)* $($value),*)
            }
        })*
    };
}

calls! {
    fn push_u64 as pv_push_u64({out: u8} n: u64, width: u32) -> Written;
    fn categorize_measure_density as pv_categorize_measure_density(density: u32) -> u32;
    fn active_range as pv_active_range([m: u32]) -> ActiveRange;
    fn compute_stream_counts as pv_compute_stream_counts([m: u32]) -> CountsAnswer;
    fn board_counts as pv_board_counts([m: u32] {out: u8}) -> Written;
    fn share as pv_share([m: u32]) -> ShareAnswer;
    fn alike as pv_alike([a: u32] [b: u32]) -> AlikeAnswer;
    fn stream_sequences as pv_stream_sequences([m: u32] {out: StreamSegment}) -> SegmentsAnswer;
    fn segment_at as pv_segment_at([m: u32] k: usize) -> NthSegment;
    fn nth_token as pv_nth_token([m: u32] k: usize) -> NthToken;
    fn format_run_symbol as pv_format_run_symbol({out: u8} class: u32, length: u64, star: bool) -> Written;
    fn generate_breakdown as pv_generate_breakdown([m: u32] {out: u8} mode: u32) -> Written;
    fn stream_breakdown as pv_stream_breakdown([m: u32] {out: u8} level: u32) -> Written;
    fn generate_breakdowns as pv_generate_breakdowns([m: u32] {out: u8}) -> ThreeWritten;
    fn stream_breakdowns as pv_stream_breakdowns([m: u32] {out: u8}) -> ThreeWritten;
    fn compute_stream_outputs as pv_compute_stream_outputs(
        [m: u32] {classes: u8} {lengths: u32} {out: u8}
    ) -> StreamOutputs;
    fn label as pv_label([m: u32] {out: u8} width: usize) -> LabelWritten;
    fn label_pair as pv_label_pair([first: u8] [second: u8] width: usize) -> PairPart;
    fn sn_to_standard as pv_sn_to_standard([sn: u8] {out: u8}) -> Written;
    fn read_chart_record as pv_read_chart_record([record: u8] {densities: u32}) -> RecordAnswer;
    fn read_note_rows as pv_read_note_rows([text: u8] {densities: u32}) -> RowsAnswer;
    fn print_sheet as pv_print_sheet([record: u8]) -> Sheet;
}
