//! The original number writer, unchanged.

#![allow(dead_code)]

include!("../rssp/math.rs");
