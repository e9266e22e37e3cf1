//! Chart lists: one chart a line, items parted by one space, an item `D` (one
//! measure of density D) or `DxK` (K measures of it). An empty line is the
//! empty chart.

/// A chart as items: density and number of measures.
pub type Items = Vec<(u32, usize)>;

/// The domain: no chart has more measures.
const MOST_MEASURES: usize = 1_048_576;

/// One chart of a list.
pub struct Chart<'a> {
    pub line: &'a str,
    pub measures: Vec<usize>,
}

/// All charts of a list, in its order.
pub fn read(list: &str) -> Result<Vec<Chart<'_>>, String> {
    if list.is_empty() {
        return Ok(Vec::new());
    }
    let Some(lines) = list.strip_suffix('\n') else {
        return Err("the last line of the list is not ended".into());
    };
    lines
        .split('\n')
        .enumerate()
        .map(|(place, line)| {
            let measures = read_line(line)
                .map_err(|message| format!("line {} of the list: {message}", place + 1))?;
            Ok(Chart { line, measures })
        })
        .collect()
}

fn read_line(line: &str) -> Result<Vec<usize>, String> {
    let mut measures = Vec::new();
    if line.is_empty() {
        return Ok(measures);
    }
    for item in line.split(' ') {
        let (density, count) = read_item(item).ok_or_else(|| format!("bad item {item:?}"))?;
        if count > MOST_MEASURES - measures.len() {
            return Err(format!("more than {MOST_MEASURES} measures"));
        }
        measures.extend(std::iter::repeat_n(density as usize, count));
    }
    Ok(measures)
}

fn read_item(item: &str) -> Option<(u32, usize)> {
    let (density, count) = match item.split_once('x') {
        Some((density, count)) => (density, read_number(count)?),
        None => (item, 1),
    };
    let density = u32::try_from(read_number(density)?).ok()?;
    (count >= 1).then_some((density, count))
}

/// Digits only: no sign, nothing around them.
fn read_number(text: &str) -> Option<usize> {
    if text.bytes().all(|byte| byte.is_ascii_digit()) {
        text.parse().ok()
    } else {
        None
    }
}

/// The line of a chart, without its end. Items of no measures are left out.
pub fn line_of(items: &[(u32, usize)]) -> String {
    let items: Vec<String> = items
        .iter()
        .filter(|&&(_, count)| count != 0)
        .map(|&(density, count)| match count {
            1 => format!("{density}"),
            _ => format!("{density}x{count}"),
        })
        .collect();
    items.join(" ")
}
