//! The counting core of tasting-jury units.
//!
//! A [`GateList`] is a circuit for one [`Shape`] of jury. Running it on the ballots fills a [`Board`], which
//! may be published: it reveals who wins and nothing else about the ballots, as long as the tape is fresh,
//! secret and random.
//!
//! ```
//! use jugyvaros::{GateList, Shape};
//!
//! // two blends, three grades, three ballots: a row for each blend, the best grade first
//! let shape = Shape::graded(2, 3, 3);
//! let ballots = [1, 0, 0, 0, 1, 0, 0, 1, 0, 0, 1, 0, 0, 1, 0, 0, 0, 1];
//! let list = GateList::own(shape)?;
//! let board = list.run(&ballots, &list.fresh_tape()?)?;
//! assert_eq!(board.winners(), [0]);
//! # Ok::<(), Box<dyn std::error::Error>>(())
//! ```
//!
//! There are other ways to run a list: on the ballots in an [`Urn`], which are admitted and withdrawn while tasting
//! goes on; by [`trustees`] who each hold a share of every bit; by a [`trustee`] on its own machine, who needs the
//! [`levels`] of the list; as a [`Dispatch`] of up to eight juries in rounds; and as a [`Batch`] of 64 juries at once.
//!
//! These types own their buffers. Those that held ballots or tapes are emptied when they are dropped. One layer below,
//! a function that is named after an entry point of `c/jugyvaros.h` works on the caller's slices and returns what the
//! entry point answers. A call that returns a [`Refusal`] has changed nothing.

#![deny(missing_docs)]

pub mod batch;
mod calls;
pub mod dispatch;
pub mod levels;
mod list;
mod reason;
mod secret;
mod text;
pub mod trustee;
pub mod trustees;
pub mod urn;

pub use batch::Batch;
pub use calls::{count, measure, run, test, write, Measures, Shape, Size};
pub use dispatch::Dispatch;
pub use list::{Board, GateList};
pub use reason::{JuryRefusal, Reason, Refusal};
pub use secret::{Number, Secret};
pub use text::{list_of_text, read_text, text, write_text};
pub use urn::Urn;

/// Which of these closing bytes are 1.
fn winners(closing: &[u8]) -> Vec<usize> {
    (0..closing.len()).filter(|&candidate| closing[candidate] == 1).collect()
}
