//! Up to eight juries in rounds. This module makes the call's tables from a list of juries; `c/jugyvaros.h` draws them.

use crate::calls::c;
use crate::{run, Board, GateList, JuryRefusal, Reason, Refusal, Secret, Shape};

/// One jury of a call: its shape, its list of gates, its ballots and a fresh, secret tape.
#[derive(Clone, Copy)]
pub struct Jury<'a> {
    /// The shape of the jury.
    pub shape: Shape,
    /// Its list, four numbers a gate.
    pub table: &'a [u32],
    /// Its I ballot bytes.
    pub ballots: &'a [u8],
    /// Its C tape bits, used for no other jury.
    pub tape: &'a [u8],
}

/// Shows how long the pieces are, not what they hold: ballots and tape are secret.
impl std::fmt::Debug for Jury<'_> {
    fn fmt(&self, f: &mut std::fmt::Formatter<'_>) -> std::fmt::Result {
        let (numbers, ballots, tape) = (self.table.len(), self.ballots.len(), self.tape.len());
        write!(f, "Jury({}: {numbers} numbers, {ballots} ballot bytes, {tape} tape bits)", self.shape)
    }
}

impl Jury<'_> {
    /// Makes all tests of a run on this jury's data. A run with an empty wire table makes every test before that of the
    /// table's length, which then refuses it, so nothing changes.
    fn test(&self) -> Result<(), Refusal> {
        match run(self.shape, self.table, self.ballots, self.tape, &mut [], &mut []) {
            Err(Refusal { reason: Reason::WiresLength, .. }) | Ok(_) => Ok(()),
            Err(refusal) => Err(refusal),
        }
    }
}

/// A finished jury: how many rounds it took, and its board.
#[derive(Clone, Debug, PartialEq, Eq)]
pub struct Finished {
    /// The number of rounds in which the jury did gates.
    pub rounds: usize,
    /// Its board, the same as after an undivided run.
    pub board: Board,
}

/// What the core is lent: in each table, the juries' pieces one after another.
struct Tables {
    headers: Vec<usize>,
    lists: Vec<u32>,
    ballots: Secret<u8>,
    tapes: Secret<u8>,
    wires: Secret<u8>,
    boards: Vec<u8>,
}

impl Tables {
    /// The tables of juries that passed their tests, so each piece has the length that shape and list ask for.
    fn of(juries: &[Jury]) -> Tables {
        let wires = juries.iter().map(|jury| jury.ballots.len() + jury.table.len() / 4).sum();
        let boards = juries.iter().map(|jury| jury.tape.len() + jury.shape.candidates).sum();
        let header =
            |Jury { shape, table, .. }: &Jury| [shape.candidates, shape.grades, shape.ballots, table.len() / 4];
        Tables {
            headers: juries.iter().flat_map(header).collect(),
            lists: juries.iter().flat_map(|jury| jury.table).copied().collect(),
            ballots: Secret::join(juries.iter().map(|jury| jury.ballots)),
            tapes: Secret::join(juries.iter().map(|jury| jury.tape)),
            wires: Secret::zeros(wires),
            boards: vec![0; boards],
        }
    }

    /// Calls the core, and returns each jury's number of rounds. The place of a refusal is the jury.
    fn run(&mut self, juries: usize, gates_per_round: usize) -> Result<[usize; 8], Refusal> {
        let Tables { headers, lists, ballots, tapes, wires, boards } = self;
        let [_, _, rounds @ ..] =
            c::jugy_dispatch(juries, gates_per_round, headers, lists, ballots, tapes, wires, boards)?;
        Ok(rounds)
    }
}

/// Refuses a bad number of juries or of gates per round. Empty tables are refused too, but these reasons come first.
fn test_call(juries: usize, gates_per_round: usize) -> Result<(), Refusal> {
    match Tables::of(&[]).run(juries, gates_per_round) {
        Err(refusal) if matches!(refusal.reason, Reason::Juries | Reason::GatesPerRound) => Err(refusal),
        _ => Ok(()),
    }
}

/// Runs the juries in rounds of up to `gates_per_round` gates each. Every jury is tested before the tables are made, so
/// no piece can reach into the next jury's.
pub fn dispatch(juries: &[Jury], gates_per_round: usize) -> Result<Vec<Finished>, JuryRefusal> {
    test_call(juries.len(), gates_per_round)?;
    for (j, jury) in juries.iter().enumerate() {
        jury.test().map_err(|refusal| JuryRefusal { jury: Some(j), refusal })?;
    }
    let mut tables = Tables::of(juries);
    let rounds = tables.run(juries.len(), gates_per_round).map_err(|Refusal { reason, place }| JuryRefusal {
        jury: Some(place),
        refusal: Refusal { reason, place: 0 },
    })?;
    let mut left = tables.boards.as_slice();
    let finished = juries.iter().zip(rounds).map(|(jury, rounds)| {
        let (board, rest) = left.split_at(jury.tape.len() + jury.shape.candidates);
        left = rest;
        Finished { rounds, board: Board::new(board.to_vec(), jury.tape.len()) }
    });
    Ok(finished.collect())
}

/// Up to eight juries that share a unit, in rounds.
///
/// ```
/// use jugyvaros::{Dispatch, GateList, Shape};
///
/// let long = GateList::own(Shape::graded(3, 4, 20))?;
/// let short = GateList::own(Shape::graded(1, 2, 1))?;
/// // every juror of the long jury gives all blends the best grade
/// let level = [1, 0, 0, 0].repeat(60);
/// let (long_tape, short_tape) = (long.fresh_tape()?, short.fresh_tape()?);
/// let mut unit = Dispatch::new(64);
/// unit.add(&long, &level, &long_tape);
/// unit.add(&short, &[1, 0], &short_tape);
/// let finished = unit.run()?;
/// assert_eq!(finished[0].board.winners(), [0, 1, 2]);
/// assert!(finished[1].rounds <= finished[0].rounds);
/// # Ok::<(), Box<dyn std::error::Error>>(())
/// ```
#[derive(Clone, Debug)]
pub struct Dispatch<'a> {
    gates_per_round: usize,
    juries: Vec<Jury<'a>>,
}

impl<'a> Dispatch<'a> {
    /// Starts without juries. In each round, every jury does up to `gates_per_round` gates.
    pub fn new(gates_per_round: usize) -> Dispatch<'a> {
        Dispatch { gates_per_round, juries: Vec::new() }
    }

    /// Adds a jury after the others, and returns its number.
    pub fn add(&mut self, list: &'a GateList, ballots: &'a [u8], tape: &'a [u8]) -> usize {
        self.juries.push(Jury { shape: list.shape(), table: list.table(), ballots, tape });
        self.juries.len() - 1
    }

    /// Runs all juries. Do not use their tapes again.
    pub fn run(self) -> Result<Vec<Finished>, JuryRefusal> {
        dispatch(&self.juries, self.gates_per_round)
    }
}
