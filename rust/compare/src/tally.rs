//! What was compared, and how much.

use puvolamie::Refused;
use std::fmt::Debug;

/// Nothing, or the first difference.
pub type Outcome = Result<(), String>;

#[derive(Default)]
pub struct Tally {
    pub charts: u64,
    pub texts: u64,
    pub sn_texts: u64,
    pub records: u64,
    pub comparisons: u64,
}

impl Tally {
    pub fn same<T: PartialEq + Debug>(&mut self, what: &str, ours: T, due: T) -> Outcome {
        self.comparisons += 1;
        if ours == due {
            return Ok(());
        }
        Err(format!(
            "{what}: ours {}, due {}",
            short(&ours),
            short(&due)
        ))
    }

    /// A chart of too many measures is refused with 1.
    pub fn too_many<T: PartialEq + Debug>(
        &mut self,
        what: &str,
        ours: Result<T, Refused>,
    ) -> Outcome {
        self.same(what, ours, Err(Refused(1)))
    }
}

fn short<T: Debug>(value: &T) -> String {
    format!("{value:?}").chars().take(300).collect()
}
