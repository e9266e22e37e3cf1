//! Request A.1's reader of note rows, line by line.

/// The densities, or the number of the first question that is answered with no.
pub fn read(text: &[u8]) -> Result<Vec<u32>, u32> {
    let mut densities = Vec::new();
    let mut rows = 0;
    let mut density = 0;
    let mut lines = text.split_inclusive(|&byte| byte == b'\n');
    while let Some(line) = lines.next() {
        match line.strip_suffix(b"\n") {
            Some(row) if is_row(row) => {
                if rows == 192 {
                    return Err(15);
                }
                rows += 1;
                if holds_note(row) {
                    density += 1;
                }
            }
            Some(b",") => {
                densities.push(density);
                rows = 0;
                density = 0;
            }
            Some(b";") => {
                densities.push(density);
                if lines.next().is_some() {
                    return Err(16);
                }
                if densities.len() > 1_048_576 {
                    return Err(1);
                }
                return Ok(densities);
            }
            _ => return Err(14),
        }
    }
    Err(16)
}

fn is_row(line: &[u8]) -> bool {
    line.len() == 4 && line.iter().all(|b| matches!(b, b'0'..=b'4' | b'M'))
}

fn holds_note(row: &[u8]) -> bool {
    row.iter().any(|b| matches!(b, b'1' | b'2' | b'4'))
}
