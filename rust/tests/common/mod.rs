//! Juries for the tests.
#![allow(dead_code)]
use jugyvaros::{Reason, Refusal, Shape};

pub const SHAPE: Shape = Shape::graded(2, 3, 3);
pub const BALLOTS: [u8; 18] = [1, 0, 0, 0, 1, 0, 0, 1, 0, 0, 1, 0, 0, 1, 0, 0, 0, 1];

/// A refusal that names no place.
pub fn refusal(reason: Reason) -> Refusal {
    Refusal { reason, place: 0 }
}

/// Numbers that need not be secret, the same in every run.
pub fn numbers(seed: u32) -> impl FnMut(usize) -> usize {
    let mut state = seed;
    move |below| {
        state = state.wrapping_mul(1664525).wrapping_add(1013904223);
        (state >> 8) as usize % below
    }
}

/// Ballots of a shape: a 1 in each row of grades; without grades, every juror ranks all candidates, with ties.
pub fn ballots(shape: Shape, random: &mut impl FnMut(usize) -> usize) -> Vec<u8> {
    let (k, d) = (shape.candidates, shape.grades);
    let mut bytes = Vec::new();
    for _ in 0..shape.ballots {
        let marks: Vec<usize> = (0..k).map(|_| random(if d == 0 { k } else { d })).collect();
        let columns = if d == 0 { k } else { d };
        let cell = |i: usize, j: usize| if d == 0 { marks[i] < marks[j] } else { marks[i] == j };
        bytes.extend((0..k * columns).map(|x| u8::from(cell(x / columns, x % columns))));
    }
    bytes
}

/// Bits that need not be secret.
pub fn bits(length: usize, random: &mut impl FnMut(usize) -> usize) -> Vec<u8> {
    (0..length).map(|_| random(2) as u8).collect()
}
