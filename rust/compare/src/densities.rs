//! The densities that a reader puts into a lent slice.

use crate::guarded::Guarded;
use crate::tally::{Outcome, Tally};
use puvolamie::Refused;
use std::fmt::Debug;

const MARK: u32 = 0xA5A5_A5A5;

/// What a reader answers and writes. Where it accepts, its slice has no place, one too few, one for each density, and more;
/// where it refuses, no place, and `enough`.
pub fn compare<A: Copy + PartialEq + Debug>(
    what: &str,
    due: Result<(A, &[u32]), u32>,
    enough: usize,
    read: impl Fn(&mut [u32]) -> Result<A, Refused>,
    tally: &mut Tally,
) -> Outcome {
    let rooms = match due {
        Ok((_, densities)) => {
            let count = densities.len();
            vec![0, count.saturating_sub(1), count, count + 3]
        }
        Err(_) => vec![0, enough],
    };
    for room in rooms {
        let (answer, written) = match due {
            Ok((_, densities)) if room < densities.len() => (Err(Refused(12)), &[][..]),
            Ok((answer, densities)) => (Ok(answer), densities),
            Err(number) => (Err(Refused(number)), &[][..]),
        };
        let mut slice = Guarded::new(room, MARK);
        tally.same(what, read(slice.lend()), answer)?;
        slice.compare(what, written, tally)?;
    }
    Ok(())
}
