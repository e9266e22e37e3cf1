//! Request A.5's converter, word by word.

/// The standard detailed text, or the number of the first question that is answered with no.
pub fn convert(text: &[u8]) -> Result<Vec<u8>, u32> {
    if text.is_empty() {
        return Ok(b"No Streams!".to_vec());
    }
    let mut standard = Vec::with_capacity(text.len());
    let mut measures = 0;
    let mut undecided = false;
    // The class of the word before: 0 for a break, and none before the first word.
    let mut before = None;
    for word in text.split(|&byte| byte == b' ') {
        let (class, digits) = item(word).ok_or(18u32)?;
        let length = number(digits).ok_or(18u32)?;
        if class == 0 {
            if length < 2 || matches!(before, None | Some(0)) {
                return Err(18);
            }
            standard.extend_from_slice(b" ");
            standard.extend_from_slice(word);
            standard.extend_from_slice(b" ");
        } else {
            if let Some(earlier) = before.filter(|&earlier| earlier != 0) {
                if earlier == class {
                    measures += 1;
                } else {
                    undecided = true;
                }
                standard.push(b'-');
            }
            standard.extend_from_slice(digits);
        }
        measures += length;
        if measures > 1_048_576 {
            return Err(18);
        }
        before = Some(class);
    }
    if before == Some(0) {
        return Err(18);
    }
    if undecided {
        return Err(19);
    }
    Ok(standard)
}

/// The class of a word, 0 for a break, and what stands inside its marks or parentheses.
fn item(word: &[u8]) -> Option<(u8, &[u8])> {
    match word {
        [b'(', digits @ .., b')'] => Some((0, digits)),
        [b'~', digits @ .., b'~'] => Some((2, digits)),
        [b'\\', digits @ .., b'\\'] => Some((3, digits)),
        [b'=', digits @ .., b'='] => Some((4, digits)),
        digits => Some((1, digits)),
    }
}

/// A number from 1 to 1,048,576 without a leading zero.
fn number(digits: &[u8]) -> Option<u32> {
    if digits.first() == Some(&b'0') {
        return None;
    }
    let mut value = 0;
    for &byte in digits {
        if !byte.is_ascii_digit() {
            return None;
        }
        value = 10 * value + u32::from(byte - b'0');
        if value > 1_048_576 {
            return None;
        }
    }
    (value > 0).then_some(value)
}
