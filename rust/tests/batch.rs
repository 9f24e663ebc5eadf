//! Runs for 64 juries: each jury gets what its single run gives, and refusals name the jury.
mod common;

use common::{ballots, numbers, refusal};
use jugyvaros::batch::{pack, run, unpack, JURIES};
use jugyvaros::{Batch, GateList, JuryRefusal, Reason, Refusal, Secret, Shape};

#[test]
fn packed_bytes_come_back() {
    let juries: Vec<Vec<u8>> = (0..JURIES).map(|j| vec![u8::from(j % 3 == 0), u8::from(j == 63), 1]).collect();
    let words = pack(&juries);
    assert_eq!((0..JURIES).map(|j| unpack(&words, j).to_vec()).collect::<Vec<_>>(), juries);
}

#[test]
fn each_jury_has_its_single_run() {
    let mut random = numbers(3);
    for shape in [Shape::graded(3, 4, 5), Shape::ranked(3, 4), Shape::graded(1, 2, 1)] {
        let list = GateList::own(shape).unwrap();
        let juries: Vec<Vec<u8>> = (0..JURIES).map(|_| ballots(shape, &mut random)).collect();
        let tape = Secret::random_words(list.conditional()).unwrap();
        let mut batch = Batch::new(&list);
        for _ in 0..2 {
            let boards = batch.run(&pack(&juries), &tape).unwrap();
            assert_eq!(boards.closing().len(), shape.candidates);
            for (j, jury) in juries.iter().enumerate() {
                let single = list.run(jury, &unpack(&tape, j)).unwrap();
                assert_eq!((boards.winners(j), boards.board(j)), (single.winners(), single));
            }
        }
    }
}

#[test]
fn a_refusal_says_which_jury_and_where_in_it() {
    let shape = Shape::graded(2, 2, 1);
    let table = [2, 0, 0, 0, 2, 0, 0, 0];
    let (mut wires, mut board) = ([5; 6], [5; 2]);
    let mut said = |shape: Shape, table: &[u32], words: &[u64]| {
        let refused = run(shape, table, words, &[], &mut wires, &mut board).unwrap_err();
        assert_eq!((wires, board), ([5; 6], [5; 2]));
        refused
    };
    // in jury 63 the second row has two ones
    let bad_row = said(shape, &table, &[u64::MAX, 0, u64::MAX, 1 << 63]);
    assert_eq!(bad_row, JuryRefusal { jury: Some(63), refusal: Refusal { reason: Reason::BallotRow, place: 1 } });
    assert_eq!((bad_row.reason(), bad_row.place()), (Reason::BallotRow, 63));
    let jury = "(place 63, counted from 0: the jury; in it, place 1: the row, b k + c)";
    assert_eq!(bad_row.to_string(), format!("refused 6 63: graded: a row has no 1, or more than one {jury}"));
    // rankings: 11 in jury 5 comes before 12 in jury 4
    let located = |jury, reason, place| JuryRefusal { jury, refusal: Refusal { reason, place } };
    let ranked = Shape::ranked(3, 1);
    let clash = said(ranked, &[0; 12], &[0, 1 << 4, 0, 0, 1 << 5, 0, 0, 0, 0]);
    assert_eq!(clash, located(Some(5), Reason::NotAsymmetric, 4));
    let gap = said(ranked, &[0; 12], &[0, 1 << 4, 0, 0, 0, 0, 0, 0, 0]);
    assert_eq!(gap, located(Some(4), Reason::NotWeakOrder, 0));
    // faults of the list and of the lengths belong to no jury
    let gate = said(shape, &[2, 0, 0, 0, 2, 9, 0, 0], &[0; 4]);
    assert_eq!(gate, located(None, Reason::Gate, 1));
    assert_eq!(gate.to_string(), "refused 3 1: a bad kind or operand (place 1, counted from 0: the gate)");
    assert_eq!(said(shape, &table, &[0; 5]), refusal(Reason::BallotsLength).into());
}
