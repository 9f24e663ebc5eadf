//! Levels of a list: which conditional gates may be opened together, and in how many rounds.

use crate::calls::c;
use crate::{Refusal, Shape};

/// G and C of a list, and R, its largest level.
#[derive(Clone, Copy, Debug, PartialEq, Eq)]
pub struct Depths {
    /// G, its gates.
    pub gates: usize,
    /// C, those of them that are conditional.
    pub conditional: usize,
    /// R, the number of rounds of openings.
    pub rounds: usize,
}

impl Depths {
    /// From an answer array.
    pub(crate) fn of([_, _, gates, conditional, rounds]: [usize; 5]) -> Depths {
        Depths { gates, conditional, rounds }
    }
}

/// Writes the level of each gate: `levels` is G numbers.
pub fn levels(shape: Shape, table: &[u32], levels: &mut [u32]) -> Result<Depths, Refusal> {
    c::jugy_levels(shape, table, levels).map(Depths::of)
}
