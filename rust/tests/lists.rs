//! Gate lists that own their numbers: made, run, written as text and read back.
mod common;

use common::{ballots, bits, numbers, refusal, BALLOTS, SHAPE};
use jugyvaros::{count, list_of_text, measure, run, write, GateList, Reason, Refusal, Shape};

#[test]
fn a_run_is_that_of_the_entry_points_and_says_who_wins() {
    let mut random = numbers(1);
    for shape in [SHAPE, Shape::graded(8, 7, 9), Shape::ranked(5, 6), Shape::ranked(1, 1), Shape::graded(1, 2, 255)] {
        let list = GateList::own(shape).unwrap();
        let m = measure(shape).unwrap();
        assert_eq!((list.gates(), list.conditional(), list.inputs()), (m.gates, m.conditional, m.inputs));
        let mut table = vec![0; 4 * m.gates];
        write(shape, &mut table).unwrap();
        assert_eq!((list.table(), list.shape()), (table.as_slice(), shape));
        let (ballots, tape) = (ballots(shape, &mut random), bits(m.conditional, &mut random));
        let (mut wires, mut expected) = (vec![7; m.inputs + m.gates], vec![7; m.conditional + shape.candidates]);
        run(shape, &table, &ballots, &tape, &mut wires, &mut expected).unwrap();
        let board = list.run(&ballots, &tape).unwrap();
        assert_eq!(board.bytes(), expected);
        assert_eq!((board.shown(), board.closing()), expected.split_at(m.conditional));
        let plain = count(shape, &ballots).unwrap();
        assert_eq!(board.closing(), &plain[..shape.candidates]);
        assert_eq!(board.winners(), (0..8).filter(|&i| plain[i] == 1).collect::<Vec<_>>());
        assert!(!board.winners().is_empty());
    }
}

#[test]
fn fresh_tapes_differ_and_hide_the_shown_bits_only() {
    let list = GateList::own(SHAPE).unwrap();
    let (one, other) = (list.fresh_tape().unwrap(), list.fresh_tape().unwrap());
    assert_eq!((one.len(), other.len()), (list.conditional(), list.conditional()));
    assert!(one != other && one.iter().all(|&bit| bit < 2));
    let (one, other) = (list.run(&BALLOTS, &one).unwrap(), list.run(&BALLOTS, &other).unwrap());
    assert!(one.shown() != other.shown() && one.closing() == other.closing());
}

#[test]
fn what_does_not_fit_is_refused() {
    assert_eq!(GateList::own(Shape::graded(2, 8, 3)), Err(refusal(Reason::Shape)));
    assert_eq!(GateList::own(Shape::graded(usize::MAX, usize::MAX, usize::MAX)), Err(refusal(Reason::Shape)));
    assert_eq!(GateList::new(SHAPE, vec![0; 7]), Err(refusal(Reason::Table)));
    assert_eq!(GateList::new(SHAPE, vec![2, 17, 0, 0, 2, 19, 0, 0]), Err(Refusal { reason: Reason::Gate, place: 1 }));
    let list = GateList::own(SHAPE).unwrap();
    let mut tape = vec![0; list.conditional()];
    assert_eq!(list.run(&BALLOTS[1..], &tape), Err(refusal(Reason::BallotsLength)));
    assert_eq!(list.run(&[0; 18], &tape), Err(refusal(Reason::BallotRow)));
    assert_eq!(list.run(&BALLOTS, &tape[1..]), Err(refusal(Reason::TapeLength)));
    tape[1] = 2;
    assert_eq!(list.run(&BALLOTS, &tape), Err(Refusal { reason: Reason::TapeByte, place: 1 }));
}

#[test]
fn a_list_is_written_and_read_back() {
    for shape in [SHAPE, Shape::ranked(3, 2)] {
        let list = GateList::own(shape).unwrap();
        let text = list.text();
        assert_eq!(text.lines().count(), list.gates());
        assert_eq!(GateList::from_text(shape, &text), Ok(list));
    }
    // the longest line: a gate of kind 7 with operands of seven digits
    let mut table: Vec<u32> = [0, 0, 0, 0].repeat(1_048_575);
    table.extend([7, 1_048_592, 1_048_591, 1_048_590]);
    let list = GateList::new(SHAPE, table).unwrap();
    assert_eq!(list_of_text(SHAPE, &list.text()).unwrap(), list.table());
    assert_eq!(GateList::from_text(SHAPE, "2 17\n2 19\n"), Err(Refusal { reason: Reason::Gate, place: 1 }));
    assert_eq!(GateList::from_text(SHAPE, "0\n1"), Err(Refusal { reason: Reason::Line, place: 1 }));
}
