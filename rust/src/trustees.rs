//! A tally by trustees. Each holds a share of every wire: one bit. The sum of all shares modulo 2 is the wire.
//! `c/jugyvaros.h` describes the four tables.
//!
//! Use a dealing for one tally only: its bits have to be random, secret and fresh, or the trustees learn more than the
//! closing bytes. Whoever deals, and whoever calls the tally, sees the plain ballots.
//!
//! ```
//! use jugyvaros::{GateList, Shape};
//!
//! let ballots = [1, 0, 0, 0, 1, 0, 0, 1, 0, 0, 1, 0, 0, 1, 0, 0, 0, 1];
//! let list = GateList::own(Shape::graded(2, 3, 3))?;
//! let dealing = list.deal(&ballots, 3)?;
//! let tally = list.tally(&ballots, &dealing)?;
//! assert_eq!(tally.winners(), [0]);
//! // a trustee publishes two bits for each conditional gate, and one for each blend
//! assert_eq!(tally.published(2).len(), 2 * list.conditional() + 2);
//! # Ok::<(), Box<dyn std::error::Error>>(())
//! ```

use crate::calls::c;
use crate::{winners, GateList, Refusal, Secret, Shape};
use std::io;

/// The trustees' shares of the ballots, and of a Beaver triple u, v, u v for each conditional gate, trustee after
/// trustee.
#[derive(Clone, Debug, PartialEq, Eq)]
pub struct Dealing {
    /// t, from 2 to 5.
    pub trustees: usize,
    /// t I bytes: each trustee's share of the ballot bytes.
    pub ballot_shares: Secret<u8>,
    /// t 3 C bytes: for each conditional gate, a trustee's shares of u, of v and of their product.
    pub triples: Secret<u8>,
}

impl Dealing {
    /// A dealing for a list of `conditional` conditional gates, with the system's random numbers. For a number of
    /// trustees outside 2 to 5, the tables are made for the nearest number in that range; the field `trustees` keeps
    /// the number given, which the tally refuses.
    pub fn fresh(ballots: &[u8], conditional: usize, trustees: usize) -> io::Result<Dealing> {
        let t = trustees.clamp(2, 5);
        let random = Secret::random_bits(ballots.len() * (t - 1) + conditional * (2 + 3 * (t - 1)))?;
        let mut next = random.iter();
        let mut dealing = deal(ballots, conditional, t, || *next.next().expect("a random bit for each draw"));
        dealing.trustees = trustees;
        Ok(dealing)
    }
}

/// Shares a bit: each trustee's share goes to place `at` of its piece. All shares but the last are random.
fn share(bit: u8, table: &mut [u8], size: usize, at: usize, random: &mut impl FnMut() -> u8) {
    let last = table.len() / size - 1;
    let mut left = bit;
    for p in 0..last {
        let part = random() % 2;
        table[p * size + at] = part;
        left ^= part;
    }
    table[last * size + at] = left;
}

/// A dealing of these ballots for a list of `conditional` conditional gates. The random bytes have to be secret and
/// fresh.
///
/// # Panics
/// If there are not 2 to 5 trustees.
pub fn deal(ballots: &[u8], conditional: usize, trustees: usize, mut random: impl FnMut() -> u8) -> Dealing {
    assert!((2..=5).contains(&trustees), "there are 2 to 5 trustees");
    let (inputs, each) = (ballots.len(), 3 * conditional);
    let mut ballot_shares = Secret::zeros(trustees * inputs);
    let mut triples = Secret::zeros(trustees * each);
    for (x, &byte) in ballots.iter().enumerate() {
        share(byte, &mut ballot_shares, inputs, x, &mut random);
    }
    for i in 0..conditional {
        let (u, v) = (random() % 2, random() % 2);
        for (j, bit) in [u, v, u & v].into_iter().enumerate() {
            share(bit, &mut triples, each, 3 * i + j, &mut random);
        }
    }
    Dealing { trustees, ballot_shares, triples }
}

/// G and C of the list, and the opened closing bits as eight bytes.
#[derive(Clone, Copy, Debug, PartialEq, Eq)]
pub struct Tallied {
    /// G, the gates of the list.
    pub gates: usize,
    /// C, the conditional ones.
    pub conditional: usize,
    /// The closing bytes, then zeros after the last candidate.
    pub closing: [u8; 8],
}

/// Tallies on the caller's tables: `wires` has t (I + G) bytes and is all zero afterwards; `published` has t (2 C + k).
pub fn tally(
    shape: Shape,
    table: &[u32],
    ballots: &[u8],
    dealing: &Dealing,
    wires: &mut [u8],
    published: &mut [u8],
) -> Result<Tallied, Refusal> {
    let Dealing { trustees, ballot_shares, triples } = dealing;
    let [_, _, gates, conditional, closing @ ..] =
        c::jugy_trustees(shape, table, ballots, *trustees, ballot_shares, triples, wires, published)?;
    let closing = closing.map(|byte| byte as u8);
    Ok(Tallied { gates, conditional, closing })
}

/// What a tally publishes.
#[derive(Clone, Debug, PartialEq, Eq)]
pub struct Tally {
    closing: Vec<u8>,
    published: Vec<u8>,
    each: usize,
}

impl Tally {
    /// A byte for each candidate. With the shape's own list, it is 1 for each that wins, else 0.
    pub fn closing(&self) -> &[u8] {
        &self.closing
    }

    /// The candidates, counted from 0, whose closing byte is 1.
    pub fn winners(&self) -> Vec<usize> {
        winners(&self.closing)
    }

    /// What this trustee, counted from 0, publishes: its two masked bits for each conditional gate, then its
    /// closing bits.
    pub fn published(&self, trustee: usize) -> &[u8] {
        &self.published[trustee * self.each..(trustee + 1) * self.each]
    }
}

/// Tallies with a list, with tables of the right lengths. A number of trustees outside 2 to 5 is refused.
pub(crate) fn tally_list(list: &GateList, ballots: &[u8], dealing: &Dealing) -> Result<Tally, Refusal> {
    let (t, each) = (dealing.trustees.clamp(2, 5), 2 * list.conditional() + list.shape().candidates);
    let mut wires = Secret::zeros(t * list.wires());
    let mut published = vec![0; t * each];
    let said = tally(list.shape(), list.table(), ballots, dealing, &mut wires, &mut published)?;
    Ok(Tally { closing: said.closing[..list.shape().candidates].to_vec(), published, each })
}
