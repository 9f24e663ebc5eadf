//! The entry points of `c/jugyvaros.h` on the caller's slices. Rust's borrow rules guarantee all that the header asks
//! of a caller.

use crate::Refusal;

pub(crate) mod c {
    use super::Shape;
    use crate::{Reason, Refusal};

    /// Declares entry points, and a function for each that calls it and returns the answer array of an accepted call.
    /// `Shape` stands for three numbers, and a slice for a pointer and a length. The number after the arrow is the
    /// length of the answer array, which comes last.
    macro_rules! entry_points {
        ($($name:ident($($parameters:tt)*) -> $answers:tt;)*) => {
            $(entry_points! { @ [$name $answers] {} {} {} $($parameters)*, })*
        };
        // each parameter adds to three lists: the function's parameters, those of C, and what is passed for them
        (@ $to:tt $own:tt $c:tt $passed:tt $x:ident: Shape, $($rest:tt)*) => {
            entry_points! {
                @ $to $own $c $passed
                + { $x: Shape, } { _: usize, _: usize, _: usize, } { $x.candidates, $x.grades, $x.ballots, }
                $($rest)*
            }
        };
        (@ $to:tt $own:tt $c:tt $passed:tt $x:ident: usize, $($rest:tt)*) => {
            entry_points! { @ $to $own $c $passed + { $x: usize, } { _: usize, } { $x, } $($rest)* }
        };
        (@ $to:tt $own:tt $c:tt $passed:tt $x:ident: &[$item:ty], $($rest:tt)*) => {
            entry_points! {
                @ $to $own $c $passed
                + { $x: &[$item], } { _: *const $item, _: usize, } { $x.as_ptr(), $x.len(), }
                $($rest)*
            }
        };
        (@ $to:tt $own:tt $c:tt $passed:tt $x:ident: &mut [$item:ty], $($rest:tt)*) => {
            entry_points! {
                @ $to $own $c $passed
                + { $x: &mut [$item], } { _: *mut $item, _: usize, } { $x.as_mut_ptr(), $x.len(), }
                $($rest)*
            }
        };
        (
            @ $to:tt { $($own:tt)* } { $($c:tt)* } { $($passed:tt)* }
            + { $($own_too:tt)* } { $($c_too:tt)* } { $($passed_too:tt)* }
            $($rest:tt)*
        ) => {
            entry_points! {
                @ $to { $($own)* $($own_too)* } { $($c)* $($c_too)* } { $($passed)* $($passed_too)* } $($rest)*
            }
        };
        (@ [$name:ident $answers:tt] { $($own:tt)* } { $($c:tt)* } { $($passed:tt)* }) => {
            #[allow(clippy::too_many_arguments)]
            pub fn $name($($own)*) -> Result<[usize; $answers], Refusal> {
                extern "C" {
                    fn $name($($c)* _: *mut usize, _: usize) -> usize;
                }
                let mut answer = [0; $answers];
                // SAFETY: a slice's pointer is aligned, not null and valid for its length; whatever is written is
                // borrowed mutably, so it overlaps nothing else that is lent.
                match unsafe { $name($($passed)* answer.as_mut_ptr(), answer.len()) } {
                    0 => Ok(answer),
                    status => {
                        // the array is long enough, so the status is one of the reasons
                        let reason = Reason::of(status).expect("a reason of the list");
                        Err(Refusal { reason, place: answer[1] })
                    }
                }
            }
        };
    }

    entry_points! {
        jugy_measure(shape: Shape) -> 5;
        jugy_write(shape: Shape, table: &mut [u32]) -> 4;
        jugy_test(shape: Shape, table: &[u32]) -> 4;
        jugy_run(shape: Shape, table: &[u32], ballots: &[u8], tape: &[u8], wires: &mut [u8], board: &mut [u8]) -> 4;
        jugy_run_urn(shape: Shape, table: &[u32], urn: &[u8], tape: &[u8], wires: &mut [u8], board: &mut [u8]) -> 4;
        jugy_run_batch(
            shape: Shape, table: &[u32], ballots: &[u64], tape: &[u64], wires: &mut [u64], board: &mut [u64]
        ) -> 4;
        jugy_count(shape: Shape, ballots: &[u8]) -> 10;
        jugy_write_text(shape: Shape, table: &[u32], output: &mut [u8]) -> 3;
        jugy_read_text(shape: Shape, text: &[u8], output: &mut [u32]) -> 3;
        jugy_empty_urn(k: usize, d: usize, urn: &mut [u8]) -> 3;
        jugy_admit(k: usize, d: usize, urn: &mut [u8], juror: usize, ballot: &[u8]) -> 3;
        jugy_withdraw(k: usize, d: usize, urn: &mut [u8], juror: usize) -> 3;
        jugy_preview_admit(k: usize, d: usize, urn: &[u8], juror: usize, ballot: &[u8]) -> 3;
        jugy_preview_withdraw(k: usize, d: usize, urn: &[u8], juror: usize) -> 3;
        jugy_trustees(
            shape: Shape, table: &[u32], ballots: &[u8], trustees: usize, ballot_shares: &[u8], triples: &[u8],
            wires: &mut [u8], published: &mut [u8]
        ) -> 12;
        jugy_dispatch(
            juries: usize, gates_per_round: usize, headers: &[usize], lists: &[u32], ballots: &[u8], tapes: &[u8],
            wires: &mut [u8], boards: &mut [u8]
        ) -> 10;
        jugy_levels(shape: Shape, table: &[u32], levels: &mut [u32]) -> 5;
        jugy_trustee_start(
            shape: Shape, table: &[u32], trustees: usize, trustee: usize, ballot_shares: &[u8], triples: &[u8],
            wires: &mut [u8], published: &mut [u8]
        ) -> 4;
        jugy_trustee_round(
            shape: Shape, table: &[u32], trustees: usize, trustee: usize, round: usize, levels: &[u32],
            triples: &[u8], heard: &[u8], wires: &mut [u8], published: &mut [u8]
        ) -> 5;
        jugy_trustee_finish(shape: Shape, table: &[u32], wires: &mut [u8]) -> 4;
    }
}

/// The shape of a jury. It can hold any numbers; the core refuses those outside the limits with reason 1.
#[derive(Clone, Copy, Debug, PartialEq, Eq)]
pub struct Shape {
    /// k, from 1 to 8.
    pub candidates: usize,
    /// d, from 2 to 7, or 0 if jurors rank the candidates.
    pub grades: usize,
    /// n, from 1 to 255.
    pub ballots: usize,
}

impl Shape {
    /// A jury whose jurors give each candidate one of `grades` grades.
    pub const fn graded(candidates: usize, grades: usize, ballots: usize) -> Shape {
        Shape { candidates, grades, ballots }
    }

    /// A jury whose jurors rank the candidates. Ties are allowed.
    pub const fn ranked(candidates: usize, ballots: usize) -> Shape {
        Shape { candidates, grades: 0, ballots }
    }

    /// Whether jurors rank the candidates.
    pub const fn is_ranked(self) -> bool {
        self.grades == 0
    }

    /// I, the ballot bytes of a jury. The shape must be within its limits, so that the product cannot overflow.
    pub(crate) fn inputs(self) -> usize {
        let columns = if self.is_ranked() { self.candidates } else { self.grades };
        self.ballots * self.candidates * columns
    }
}

impl std::fmt::Display for Shape {
    fn fmt(&self, f: &mut std::fmt::Formatter<'_>) -> std::fmt::Result {
        write!(f, "{} {} {}", self.candidates, self.grades, self.ballots)
    }
}

/// G and C of a list.
#[derive(Clone, Copy, Debug, PartialEq, Eq)]
pub struct Size {
    /// G, its gates.
    pub gates: usize,
    /// C, those of them that are conditional.
    pub conditional: usize,
}

impl Size {
    /// From an answer array.
    pub(crate) fn of([_, _, gates, conditional]: [usize; 4]) -> Size {
        Size { gates, conditional }
    }
}

/// G, C and I of a shape's own list.
#[derive(Clone, Copy, Debug, PartialEq, Eq)]
pub struct Measures {
    /// G, its gates.
    pub gates: usize,
    /// C, those of them that are conditional.
    pub conditional: usize,
    /// I, the ballot bytes.
    pub inputs: usize,
}

/// Measures a shape's own list.
pub fn measure(shape: Shape) -> Result<Measures, Refusal> {
    c::jugy_measure(shape).map(|[_, _, gates, conditional, inputs]| Measures { gates, conditional, inputs })
}

/// Writes a shape's own list at the start of the table, four numbers a gate.
pub fn write(shape: Shape, table: &mut [u32]) -> Result<Size, Refusal> {
    c::jugy_write(shape, table).map(Size::of)
}

/// Tests a list for a shape, whoever wrote it.
pub fn test(shape: Shape, table: &[u32]) -> Result<Size, Refusal> {
    c::jugy_test(shape, table).map(Size::of)
}

/// Runs a list on the ballots, with one tape byte for each conditional gate. The tape has to be random, secret, and
/// used only once. Afterwards `wires` is all zero, and `board` may be published. The table holds the list and nothing
/// else.
pub fn run(
    shape: Shape,
    table: &[u32],
    ballots: &[u8],
    tape: &[u8],
    wires: &mut [u8],
    board: &mut [u8],
) -> Result<Size, Refusal> {
    c::jugy_run(shape, table, ballots, tape, wires, board).map(Size::of)
}

/// Counts plainly, without a list: a closing byte for each candidate, then zeros up to eight.
pub fn count(shape: Shape, ballots: &[u8]) -> Result<[u8; 8], Refusal> {
    let [_, _, closing @ ..] = c::jugy_count(shape, ballots)?;
    Ok(closing.map(|byte| byte as u8))
}
