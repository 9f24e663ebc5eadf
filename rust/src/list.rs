//! A gate list that is known to fit its shape, and the board that a run of it leaves.

use crate::calls::c;
use crate::trustees::{self, Dealing, Tally};
use crate::{list_of_text, measure, test, text, winners, write, Refusal, Secret, Shape, Size, Urn};
use std::io;

/// An entry point that runs a list on one jury.
type Run = fn(Shape, &[u32], &[u8], &[u8], &mut [u8], &mut [u8]) -> Result<[usize; 4], Refusal>;

/// A circuit for one shape of jury. It is tested when it is made, so no run is refused because of the list.
///
/// ```
/// use jugyvaros::{GateList, Reason, Shape};
///
/// let shape = Shape::graded(1, 2, 1);
/// // a list of our own: one gate, which copies the first ballot byte
/// let list = GateList::new(shape, vec![2, 0, 0, 0])?;
/// assert_eq!((list.gates(), list.conditional(), list.inputs()), (1, 0, 2));
/// assert_eq!(list.text(), "2 0\n");
/// assert_eq!(list.run(&[1, 0], &[])?.closing(), [1]);
/// // wire 2 is the gate's own, so it cannot be an operand
/// let refusal = GateList::new(shape, vec![2, 2, 0, 0]).unwrap_err();
/// assert_eq!((refusal.reason, refusal.place), (Reason::Gate, 0));
/// # Ok::<(), jugyvaros::Refusal>(())
/// ```
#[derive(Clone, Debug, PartialEq, Eq)]
pub struct GateList {
    shape: Shape,
    table: Vec<u32>,
    size: Size,
}

impl GateList {
    /// The list that the core generates for a shape: its closing bytes say who wins.
    pub fn own(shape: Shape) -> Result<GateList, Refusal> {
        let mut table = vec![0; 4 * measure(shape)?.gates];
        let size = write(shape, &mut table)?;
        Ok(GateList { shape, table, size })
    }

    /// A list that somebody else wrote, four numbers a gate. It is refused if it does not fit the shape.
    pub fn new(shape: Shape, table: Vec<u32>) -> Result<GateList, Refusal> {
        let size = test(shape, &table)?;
        Ok(GateList { shape, table, size })
    }

    /// A list as text. It is refused if it does not fit the shape.
    pub fn from_text(shape: Shape, text: &str) -> Result<GateList, Refusal> {
        GateList::new(shape, list_of_text(shape, text)?)
    }

    /// The list as text, a line a gate.
    pub fn text(&self) -> String {
        text(self.shape, &self.table).expect("the list fits its shape, and the room is enough for any list")
    }

    /// The shape that the list is for.
    pub fn shape(&self) -> Shape {
        self.shape
    }

    /// The list's numbers, four a gate.
    pub fn table(&self) -> &[u32] {
        &self.table
    }

    /// G: how many gates there are.
    pub fn gates(&self) -> usize {
        self.size.gates
    }

    /// C: how many of them are conditional, and so how many bits a tape has.
    pub fn conditional(&self) -> usize {
        self.size.conditional
    }

    /// I: how many bytes the ballots have.
    pub fn inputs(&self) -> usize {
        self.shape.inputs()
    }

    /// I + G: how many wires there are.
    pub(crate) fn wires(&self) -> usize {
        self.inputs() + self.gates()
    }

    /// C + k: how many bytes a board has.
    pub(crate) fn board_length(&self) -> usize {
        self.conditional() + self.shape.candidates
    }

    /// The level of each gate: its multiplicative depth.
    pub fn levels(&self) -> Vec<u32> {
        let mut levels = vec![0; self.gates()];
        crate::levels::levels(self.shape, &self.table, &mut levels).expect("the list fits its shape");
        levels
    }

    /// R, the largest level. Gates of one level can be opened together, so R rounds of openings are enough.
    pub fn rounds(&self) -> usize {
        self.levels().into_iter().max().unwrap_or(0) as usize
    }

    /// A fresh tape from the system's random numbers. Use it for one run only: a tape that is used twice reveals what
    /// the wires hold.
    pub fn fresh_tape(&self) -> io::Result<Secret<u8>> {
        Secret::random_bits(self.conditional())
    }

    /// Runs the list on I ballot bytes with C fresh, secret tape bits.
    pub fn run(&self, ballots: &[u8], tape: &[u8]) -> Result<Board, Refusal> {
        self.run_by(c::jugy_run, ballots, tape)
    }

    /// Runs the list on the ballots in an urn, in chain order.
    pub fn run_urn(&self, urn: &Urn, tape: &[u8]) -> Result<Board, Refusal> {
        self.run_by(c::jugy_run_urn, urn.bytes(), tape)
    }

    fn run_by(&self, call: Run, ballots: &[u8], tape: &[u8]) -> Result<Board, Refusal> {
        let mut wires = Secret::zeros(self.wires());
        let mut board = vec![0; self.board_length()];
        call(self.shape, &self.table, ballots, tape, &mut wires, &mut board)?;
        Ok(Board::new(board, self.conditional()))
    }

    /// Shares the ballots, and a triple for each conditional gate, among 2 to 5 trustees, with the system's random
    /// numbers.
    pub fn deal(&self, ballots: &[u8], trustees: usize) -> io::Result<Dealing> {
        Dealing::fresh(ballots, self.conditional(), trustees)
    }

    /// Tallies a dealing of these ballots.
    pub fn tally(&self, ballots: &[u8], dealing: &Dealing) -> Result<Tally, Refusal> {
        trustees::tally_list(self, ballots, dealing)
    }
}

/// What a run publishes: the shown bits, masked by the tape, then a closing byte for each candidate.
#[derive(Clone, Debug, PartialEq, Eq)]
pub struct Board {
    bytes: Vec<u8>,
    conditional: usize,
}

impl Board {
    pub(crate) fn new(bytes: Vec<u8>, conditional: usize) -> Board {
        Board { bytes, conditional }
    }

    /// All C + k bytes.
    pub fn bytes(&self) -> &[u8] {
        &self.bytes
    }

    /// The first C bytes: wire a of each conditional gate, masked by its tape bit.
    pub fn shown(&self) -> &[u8] {
        &self.bytes[..self.conditional]
    }

    /// The last k bytes. With the shape's own list, they are 1 for each candidate that wins, else 0.
    pub fn closing(&self) -> &[u8] {
        &self.bytes[self.conditional..]
    }

    /// The candidates, counted from 0, whose closing byte is 1.
    pub fn winners(&self) -> Vec<usize> {
        winners(self.closing())
    }
}
