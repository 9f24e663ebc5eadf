//! One list run on 64 juries of one shape at once: each number holds a bit for each jury, jury 0 in the lowest.
//!
//! [`pack`] and [`unpack`] convert between the bytes of 64 juries and such numbers. All 64 juries are tested and run:
//! if you have fewer, fill up with copies.

use crate::calls::c;
use crate::{count, winners, Board, GateList, JuryRefusal, Reason, Refusal, Secret, Shape, Size};
use std::io;

/// How many juries one call runs.
pub const JURIES: usize = 64;

/// Packs the bytes of up to 64 juries into numbers: bit j of number i is byte i of jury j. All juries have the same
/// number of bytes, each 0 or 1. Missing juries are all zeros.
///
/// # Panics
/// If there are more than 64 juries, their lengths differ, or a byte is above 1.
pub fn pack<T: AsRef<[u8]>>(juries: &[T]) -> Secret<u64> {
    assert!(juries.len() <= JURIES, "a number has room for 64 juries");
    let length = juries.first().map_or(0, |bytes| bytes.as_ref().len());
    let mut words = Secret::zeros(length);
    for (j, bytes) in juries.iter().enumerate() {
        let bytes = bytes.as_ref();
        assert!(bytes.len() == length, "all juries have the same number of bytes");
        for (word, &byte) in words.iter_mut().zip(bytes) {
            assert!(byte <= 1, "a byte is 0 or 1");
            *word |= u64::from(byte) << j;
        }
    }
    words
}

/// The bytes of jury j.
///
/// # Panics
/// If j is above 63.
pub fn unpack(words: &[u64], j: usize) -> Secret<u8> {
    assert!(j < JURIES, "juries are 0 to 63");
    let mut bytes = Secret::zeros(words.len());
    for (byte, word) in bytes.iter_mut().zip(words) {
        *byte = (word >> j & 1) as u8;
    }
    bytes
}

/// Runs a list on the ballots of 64 juries, with one tape number for each conditional gate. Each slice has as many
/// numbers as a single run has bytes. Reasons 5 and 8 never apply. `wires` is all zero afterwards.
pub fn run(
    shape: Shape,
    table: &[u32],
    ballots: &[u64],
    tape: &[u64],
    wires: &mut [u64],
    board: &mut [u64],
) -> Result<Size, JuryRefusal> {
    c::jugy_run_batch(shape, table, ballots, tape, wires, board)
        .map(Size::of)
        .map_err(|refusal| located(shape, ballots, refusal))
}

/// For a fault in ballots, the place that the core answers is the first jury with the fault. A plain count of that jury
/// then tells where in its ballots the fault is.
fn located(shape: Shape, ballots: &[u64], refusal: Refusal) -> JuryRefusal {
    match refusal.reason {
        Reason::BallotRow | Reason::NotAsymmetric | Reason::NotWeakOrder => {
            let alone = count(shape, &unpack(ballots, refusal.place)).err();
            JuryRefusal { jury: Some(refusal.place), refusal: alone.unwrap_or(refusal) }
        }
        _ => refusal.into(),
    }
}

/// A list with the buffers to run it for 64 juries, as often as needed.
///
/// ```
/// use jugyvaros::batch::pack;
/// use jugyvaros::{Batch, GateList, Shape};
///
/// let list = GateList::own(Shape::graded(2, 2, 1))?;
/// // even juries like blend 0, odd ones blend 1
/// let ballots: Vec<[u8; 4]> = (0..64).map(|j| if j % 2 == 0 { [1, 0, 0, 1] } else { [0, 1, 1, 0] }).collect();
/// let mut batch = Batch::new(&list);
/// let tape = batch.fresh_tape()?;
/// let boards = batch.run(&pack(&ballots), &tape)?;
/// assert_eq!((boards.winners(0), boards.winners(63)), (vec![0], vec![1]));
/// # Ok::<(), Box<dyn std::error::Error>>(())
/// ```
#[derive(Debug)]
pub struct Batch<'a> {
    list: &'a GateList,
    wires: Secret<u64>,
    board: Vec<u64>,
}

impl<'a> Batch<'a> {
    /// Makes the buffers for this list.
    pub fn new(list: &'a GateList) -> Batch<'a> {
        Batch { list, wires: Secret::zeros(list.wires()), board: vec![0; list.board_length()] }
    }

    /// Fresh tapes for 64 juries from the system's random numbers. Use them for one run.
    pub fn fresh_tape(&self) -> io::Result<Secret<u64>> {
        Secret::random_words(self.list.conditional())
    }

    /// Runs the list on I numbers of ballots with C numbers of tape.
    pub fn run(&mut self, ballots: &[u64], tape: &[u64]) -> Result<Boards<'_>, JuryRefusal> {
        run(self.list.shape(), self.list.table(), ballots, tape, &mut self.wires, &mut self.board)?;
        Ok(Boards { words: &self.board, conditional: self.list.conditional() })
    }
}

/// The boards of 64 juries, a bit for each jury.
#[derive(Clone, Copy, Debug)]
pub struct Boards<'a> {
    words: &'a [u64],
    conditional: usize,
}

impl<'a> Boards<'a> {
    /// A number for each candidate: bit j is its closing byte in jury j.
    pub fn closing(self) -> &'a [u64] {
        &self.words[self.conditional..]
    }

    /// The board of jury j.
    pub fn board(self, j: usize) -> Board {
        Board::new(unpack(self.words, j).to_vec(), self.conditional)
    }

    /// The candidates that win in jury j.
    pub fn winners(self, j: usize) -> Vec<usize> {
        winners(&unpack(self.closing(), j))
    }
}
