//! An urn for graded ballots: admission, withdrawal, previews of both, and a run on the ballots in it.
//! `c/jugyvaros.h` describes the bytes of an urn, and says when it is sound.
//!
//! Each call returns the number of ballots in the urn afterwards. If it returns a refusal, the urn is unchanged.

use crate::calls::c;
use crate::{Reason, Refusal, Secret, Shape, Size};

/// The number of ballots in an answer array.
fn ballots([_, _, ballots]: [usize; 3]) -> usize {
    ballots
}

/// Makes a table into an empty urn, whatever its bytes are. All its slots are free, in order.
pub fn empty(k: usize, d: usize, urn: &mut [u8]) -> Result<usize, Refusal> {
    c::jugy_empty_urn(k, d, urn).map(ballots)
}

/// Admits a juror's ballot.
pub fn admit(k: usize, d: usize, urn: &mut [u8], juror: usize, ballot: &[u8]) -> Result<usize, Refusal> {
    c::jugy_admit(k, d, urn, juror, ballot).map(ballots)
}

/// Withdraws a juror's ballot.
pub fn withdraw(k: usize, d: usize, urn: &mut [u8], juror: usize) -> Result<usize, Refusal> {
    c::jugy_withdraw(k, d, urn, juror).map(ballots)
}

/// What `admit` would return. The urn is not changed.
pub fn preview_admit(k: usize, d: usize, urn: &[u8], juror: usize, ballot: &[u8]) -> Result<usize, Refusal> {
    c::jugy_preview_admit(k, d, urn, juror, ballot).map(ballots)
}

/// What `withdraw` would return. The urn is not changed.
pub fn preview_withdraw(k: usize, d: usize, urn: &[u8], juror: usize) -> Result<usize, Refusal> {
    c::jugy_preview_withdraw(k, d, urn, juror).map(ballots)
}

/// Runs a list on the ballots in an urn, in chain order, as [`crate::run`] would on these ballots. The tape has to be
/// random, secret, and used only once. Afterwards `wires` is all zero, and `board` may be published.
pub fn run(
    shape: Shape,
    table: &[u32],
    urn: &[u8],
    tape: &[u8],
    wires: &mut [u8],
    board: &mut [u8],
) -> Result<Size, Refusal> {
    c::jugy_run_urn(shape, table, urn, tape, wires, board).map(Size::of)
}

/// An urn that owns its bytes.
///
/// ```
/// use jugyvaros::{GateList, Reason, Shape, Urn};
///
/// let mut urn = Urn::new(2, 3, 10)?;
/// urn.admit(7, &[1, 0, 0, 0, 1, 0])?;
/// urn.admit(9, &[0, 0, 1, 1, 0, 0])?;
/// assert_eq!(urn.preview_admit(7, &[1, 0, 0, 0, 1, 0]).unwrap_err().reason, Reason::Juror);
/// assert_eq!(urn.withdraw(9)?, 1);
///
/// let list = GateList::own(Shape::graded(2, 3, urn.ballots()))?;
/// assert_eq!(list.run_urn(&urn, &list.fresh_tape()?)?.winners(), [0]);
/// # Ok::<(), Box<dyn std::error::Error>>(())
/// ```
#[derive(Clone, Debug, PartialEq, Eq)]
pub struct Urn {
    candidates: usize,
    grades: usize,
    bytes: Secret<u8>,
}

impl Urn {
    /// An empty urn of 2 to 256 slots. Slot 0 holds no ballot, so there is room for one ballot fewer.
    pub fn new(candidates: usize, grades: usize, slots: usize) -> Result<Urn, Refusal> {
        // a number one above its limit is refused like any larger one, so no longer table is needed
        let mut bytes = Secret::zeros(slots.min(257) * (2 + candidates.min(9) * grades.min(8)));
        empty(candidates, grades, &mut bytes)?;
        Ok(Urn { candidates, grades, bytes })
    }

    /// An urn from its bytes. It is refused if it is not sound. The bytes are moved in, and emptied with the urn.
    pub fn from_bytes(candidates: usize, grades: usize, bytes: Vec<u8>) -> Result<Urn, Refusal> {
        let urn = Urn { candidates, grades, bytes: bytes.into() };
        match urn.preview_withdraw(0) {
            // 0 is no juror's number, and only a sound urn gets as far as this test
            Err(Refusal { reason: Reason::Juror, .. }) => Ok(urn),
            Err(refusal) => Err(refusal),
            Ok(_) => unreachable!("0 is no juror's number"),
        }
    }

    /// Its bytes, which hold the ballots in clear.
    pub fn bytes(&self) -> &[u8] {
        &self.bytes
    }

    /// How many ballots it has.
    pub fn ballots(&self) -> usize {
        let next = |slot: &usize| match usize::from(self.bytes[slot * (2 + self.candidates * self.grades)]) {
            0 => None,
            slot => Some(slot),
        };
        std::iter::successors(next(&0), next).count()
    }

    /// Admits a juror's ballot, and returns the number of ballots.
    pub fn admit(&mut self, juror: usize, ballot: &[u8]) -> Result<usize, Refusal> {
        admit(self.candidates, self.grades, &mut self.bytes, juror, ballot)
    }

    /// Withdraws a juror's ballot, and returns the number of ballots.
    pub fn withdraw(&mut self, juror: usize) -> Result<usize, Refusal> {
        withdraw(self.candidates, self.grades, &mut self.bytes, juror)
    }

    /// What [`Urn::admit`] would return. The urn is not changed.
    pub fn preview_admit(&self, juror: usize, ballot: &[u8]) -> Result<usize, Refusal> {
        preview_admit(self.candidates, self.grades, &self.bytes, juror, ballot)
    }

    /// What [`Urn::withdraw`] would return. The urn is not changed.
    pub fn preview_withdraw(&self, juror: usize) -> Result<usize, Refusal> {
        preview_withdraw(self.candidates, self.grades, &self.bytes, juror)
    }
}
