//! `judge charts`: the two chart lists. Nothing in them is left to chance.

use crate::built;
use crate::list::{line_of, Items};

/// One density of each class: the break, then classes 1 to 4.
const DENSITIES: [u32; 5] = [0, 16, 20, 24, 32];

/// Limits of a list, so that any reader can have fixed room for it.
const MOST_MEASURES: usize = 4_096;
const MOST_LINE_BYTES: usize = 200;

/// All charts of up to 4 measures, then the built charts.
pub fn for_measures() -> Result<String, String> {
    list(4, 60_000)
}

/// All charts of up to 5 measures, then the built charts.
pub fn for_texts() -> Result<String, String> {
    list(5, 120_000)
}

fn list(small: u32, most_bytes: usize) -> Result<String, String> {
    let mut out = String::new();
    for length in 0..=small {
        push_all_of_length(&mut out, length);
    }
    for items in built::charts() {
        push_chart(&mut out, &items)?;
    }
    if out.len() >= most_bytes {
        return Err(format!("the list has {} bytes", out.len()));
    }
    Ok(out)
}

/// Counts upward, the last measure fastest; each measure is its own item.
fn push_all_of_length(out: &mut String, length: u32) {
    for number in 0..5usize.pow(length) {
        let items: Items = (0..length)
            .rev()
            .map(|place| (DENSITIES[number / 5usize.pow(place) % 5], 1))
            .collect();
        out.push_str(&line_of(&items));
        out.push('\n');
    }
}

fn push_chart(out: &mut String, items: &Items) -> Result<(), String> {
    let line = line_of(items);
    let measures: usize = items.iter().map(|&(_, count)| count).sum();
    if measures > MOST_MEASURES || line.len() > MOST_LINE_BYTES {
        return Err(format!("this chart is beyond the limits: {line}"));
    }
    out.push_str(&line);
    out.push('\n');
    Ok(())
}
