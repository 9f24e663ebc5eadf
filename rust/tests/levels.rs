//! Levels through the wrapper.

use jugyvaros::levels::levels;
use jugyvaros::{GateList, Reason, Shape};

const SHAPE: Shape = Shape { candidates: 2, grades: 2, ballots: 1 };

// an AND of two ballot bytes; a copy of it, which is free; a choice by that copy, which is one level deeper
const LIST: [u32; 12] = [4, 0, 1, 0, 2, 4, 0, 0, 7, 5, 2, 3];

#[test]
fn levels_of_a_small_list() {
    let mut found = [9; 3];
    let depths = levels(SHAPE, &LIST, &mut found).unwrap();
    assert_eq!((depths.gates, depths.conditional, depths.rounds), (3, 2, 2));
    assert_eq!(found, [1, 1, 2]);
    let list = GateList::new(SHAPE, LIST.to_vec()).unwrap();
    assert_eq!((list.levels(), list.rounds()), (found.to_vec(), 2));
}

#[test]
fn another_length_is_refused_and_nothing_written() {
    let mut found = [9; 4];
    let refusal = levels(SHAPE, &LIST, &mut found).unwrap_err();
    assert_eq!((refusal.reason, refusal.place), (Reason::Levels, 0));
    assert_eq!(found, [9; 4]);
}
