//! Request A.7's counts line for boards, from the counts.

use puvolamie::StreamCounts;

/// The eight counts, each at width 7, parted by one space, ended by 0A.
pub fn line(c: &StreamCounts) -> String {
    let numbers = [
        c.run16_streams,
        c.run20_streams,
        c.run24_streams,
        c.run32_streams,
        c.total_breaks,
        c.sn_breaks,
        c.lead,
        c.tail,
    ];
    numbers.map(|n| format!("{n:>7}")).join(" ") + "\n"
}
