//! A trustee on its own machine: it holds its own tables, and learns nothing from the others but opened sums.
//!
//! All trustees start, then do the rounds 0 to R together. `c/jugyvaros.h` says what the tables hold and what may be
//! sent. The program `houses` runs each trustee as a process.

use crate::calls::c;
use crate::levels::Depths;
use crate::{Refusal, Shape, Size};

/// One trustee's seat: trustee `number`, counted from 0, of `trustees`, who run a list together.
#[derive(Clone, Copy, Debug)]
pub struct Seat<'a> {
    /// The jury's shape.
    pub shape: Shape,
    /// The list that all trustees run, four numbers a gate.
    pub table: &'a [u32],
    /// t, from 2 to 5.
    pub trustees: usize,
    /// Which of them this is, from 0 to t - 1.
    pub number: usize,
}

impl Seat<'_> {
    /// Starts with I ballot shares and 3 C bits of triples. `wires` has I + G bytes, `published` 2 C + k.
    pub fn start(
        &self,
        ballot_shares: &[u8],
        triples: &[u8],
        wires: &mut [u8],
        published: &mut [u8],
    ) -> Result<Size, Refusal> {
        let Seat { shape, table, trustees, number } = *self;
        c::jugy_trustee_start(shape, table, trustees, number, ballot_shares, triples, wires, published).map(Size::of)
    }

    /// Does a round. `heard` has the sums, modulo 2, of what all trustees have published so far; `published` is then
    /// what this trustee may send.
    pub fn round(
        &self,
        round: usize,
        levels: &[u32],
        triples: &[u8],
        heard: &[u8],
        wires: &mut [u8],
        published: &mut [u8],
    ) -> Result<Depths, Refusal> {
        let Seat { shape, table, trustees, number } = *self;
        c::jugy_trustee_round(shape, table, trustees, number, round, levels, triples, heard, wires, published)
            .map(Depths::of)
    }

    /// Empties its shares of the wires. Call it after the closing bits have been sent.
    pub fn finish(&self, wires: &mut [u8]) -> Result<Size, Refusal> {
        c::jugy_trustee_finish(self.shape, self.table, wires).map(Size::of)
    }
}
