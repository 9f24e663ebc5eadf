//! The urn through the wrapper: ballots go in and out, previews change nothing, and a run takes the chain's ballots in
//! order.
mod common;

use common::{refusal, SHAPE};
use jugyvaros::urn::{admit, empty, run, withdraw};
use jugyvaros::{GateList, Reason, Shape, Urn};

#[test]
fn in_and_out() {
    let mut urn = Urn::new(1, 2, 3).unwrap();
    let before = urn.clone();
    assert_eq!(urn.preview_admit(7, &[1, 0]), Ok(1));
    assert_eq!(urn, before);
    assert_eq!(urn.admit(7, &[1, 0]), Ok(1));
    let one = urn.clone();
    assert_eq!(urn.admit(255, &[0, 1]), Ok(2));
    assert_eq!(urn.ballots(), 2);
    assert_eq!(urn.admit(8, &[0, 1]), Err(refusal(Reason::FullUrn)));
    assert_eq!(urn.admit(7, &[0, 1]), Err(refusal(Reason::Juror)));
    assert_eq!(urn.preview_withdraw(255), Ok(1));
    assert_eq!(urn.withdraw(255), Ok(1));
    assert_eq!(urn, one);
    assert_eq!(Urn::from_bytes(1, 2, urn.bytes().to_vec()).unwrap(), one);
    assert_eq!(urn.withdraw(7), Ok(0));
    assert_eq!((urn.ballots(), &urn), (0, &before));
    assert_eq!(urn.withdraw(7), Err(refusal(Reason::Juror)));
}

#[test]
fn damaged() {
    let mut bytes = Urn::new(2, 3, 256).unwrap().bytes().to_vec();
    bytes[9] = 1;
    assert_eq!(admit(2, 3, &mut bytes, 1, &[1, 0, 0, 0, 1, 0]), Err(refusal(Reason::Urn)));
    assert_eq!(admit(2, 0, &mut bytes, 1, &[]), Err(refusal(Reason::Shape)));
    assert_eq!(withdraw(2, 3, &mut bytes, 1), Err(refusal(Reason::Urn)));
    assert_eq!(Urn::from_bytes(2, 3, bytes), Err(refusal(Reason::Urn)));
    assert_eq!(Urn::from_bytes(2, usize::MAX, vec![]), Err(refusal(Reason::Shape)));
}

#[test]
fn made_empty() {
    let mut urn = [9; 12];
    assert_eq!(empty(1, 2, &mut urn), Ok(0));
    assert_eq!(urn, [0, 1, 0, 0, 2, 0, 0, 0, 0, 0, 0, 0]);
    assert_eq!(empty(1, 2, &mut [9; 13]), Err(refusal(Reason::Urn)));
    assert_eq!(empty(1, 0, &mut [9; 12]), Err(refusal(Reason::Shape)));
    for (k, d, slots) in [(1, 2, 1), (1, 2, 257), (1, 2, usize::MAX)] {
        assert_eq!(Urn::new(k, d, slots), Err(refusal(Reason::Urn)));
    }
    for (k, d, slots) in [(usize::MAX, 2, 2), (8, 8, 2), (2, usize::MAX, usize::MAX)] {
        assert_eq!(Urn::new(k, d, slots), Err(refusal(Reason::Shape)));
    }
}

#[test]
fn the_chain_is_run() {
    const BALLOTS: [[u8; 6]; 3] = [[1, 0, 0, 0, 1, 0], [0, 1, 0, 0, 0, 1], [0, 1, 0, 1, 0, 0]];
    let list = GateList::own(SHAPE).unwrap();
    let tape = list.fresh_tape().unwrap();
    let mut urn = Urn::new(2, 3, 6).unwrap();
    for (juror, ballot) in BALLOTS.iter().enumerate() {
        urn.admit(juror + 1, ballot).unwrap();
    }
    // the last ballot to be admitted comes first
    let chain: Vec<u8> = BALLOTS.iter().rev().flatten().copied().collect();
    let before = urn.clone();
    let expected = list.run(&chain, &tape).unwrap();
    assert_eq!(list.run_urn(&urn, &tape).unwrap(), expected);
    let (mut wires, mut board) = (vec![7; list.inputs() + list.gates()], vec![7; list.conditional() + 2]);
    run(SHAPE, list.table(), urn.bytes(), &tape, &mut wires, &mut board).unwrap();
    assert_eq!((board.as_slice(), urn, wires.iter().all(|byte| *byte == 0)), (expected.bytes(), before, true));
}

#[test]
fn a_refused_run_alters_nothing() {
    let list = GateList::own(SHAPE).unwrap();
    let mut urn = Urn::new(2, 3, 2).unwrap();
    urn.admit(1, &[1, 0, 0, 0, 1, 0]).unwrap();
    assert_eq!(list.run_urn(&urn, &[]), Err(refusal(Reason::BallotsLength)));
    let mut bytes = urn.bytes().to_vec();
    let (mut wires, mut board) = ([7; 3], [7; 3]);
    let mut said = |shape: Shape, table: &[u32], urn: &[u8]| run(shape, table, urn, &[], &mut wires, &mut board);
    assert_eq!(said(SHAPE, &list.table()[1..], &bytes), Err(refusal(Reason::Table)));
    bytes[0] = 0;
    assert_eq!(said(SHAPE, &[], &bytes), Err(refusal(Reason::Urn)));
    assert_eq!(said(Shape::ranked(2, 3), &[], &bytes), Err(refusal(Reason::Shape)));
    assert_eq!((wires, board), ([7; 3], [7; 3]));
}
