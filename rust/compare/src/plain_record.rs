//! Document 01's chart record with the two cuts of request A.2, field by field.

pub struct Record<'a> {
    pub name: &'a [u8],
    pub densities: Vec<u32>,
}

/// The name and the densities, or the number of the first question that is answered with no.
pub fn read(record: &[u8]) -> Result<Record<'_>, u32> {
    let mut name = None;
    let mut densities = Vec::new();
    let mut rest = record;
    while !rest.is_empty() {
        let [tag, high, low, bytes @ ..] = rest else {
            return Err(8);
        };
        let length = usize::from(u16::from_be_bytes([*high, *low]));
        if bytes.len() < length {
            return Err(17);
        }
        let (payload, next) = bytes.split_at(length);
        match (tag, name) {
            (1, None) if is_name(payload) => name = Some(payload),
            (1, None) => return Err(11),
            (2, Some(_)) => densities.extend(payload.iter().map(|&byte| u32::from(byte))),
            (1 | 2, _) => return Err(10),
            _ => return Err(9),
        }
        rest = next;
    }
    let name = name.ok_or(10_u32)?;
    if densities.len() > 1_048_576 {
        return Err(1);
    }
    Ok(Record { name, densities })
}

fn is_name(payload: &[u8]) -> bool {
    (1..=64).contains(&payload.len()) && payload.iter().all(|byte| matches!(byte, 0x20..=0x7E))
}
