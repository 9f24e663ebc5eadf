//! Juries through the dispatcher, against their undivided runs, and what is refused before any table is made.
mod common;

use common::{ballots, bits, numbers};
use jugyvaros::dispatch::{dispatch, Jury};
use jugyvaros::{Dispatch, GateList, JuryRefusal, Reason, Refusal, Shape};

const SHAPES: [Shape; 3] = [Shape::graded(2, 3, 3), Shape::ranked(3, 2), Shape::graded(3, 4, 5)];

/// Three juries: their lists, ballots and tapes.
struct Juries {
    lists: Vec<GateList>,
    ballots: Vec<Vec<u8>>,
    tapes: Vec<Vec<u8>>,
}

impl Juries {
    fn new() -> Juries {
        let mut random = numbers(5);
        let lists: Vec<GateList> = SHAPES.into_iter().map(|shape| GateList::own(shape).unwrap()).collect();
        let tapes = lists.iter().map(|list| bits(list.conditional(), &mut random)).collect();
        Juries { lists, ballots: SHAPES.into_iter().map(|shape| ballots(shape, &mut random)).collect(), tapes }
    }

    fn pieces(&self) -> Vec<Jury<'_>> {
        let piece = |j: usize| Jury {
            shape: SHAPES[j],
            table: self.lists[j].table(),
            ballots: &self.ballots[j],
            tape: &self.tapes[j],
        };
        (0..3).map(piece).collect()
    }
}

fn refused(jury: usize, reason: Reason, place: usize) -> JuryRefusal {
    JuryRefusal { jury: Some(jury), refusal: Refusal { reason, place } }
}

#[test]
fn boards_are_those_of_undivided_runs() {
    let of = Juries::new();
    for gates_per_round in [1, 7, 64, 65536] {
        let mut unit = Dispatch::new(gates_per_round);
        for j in 0..3 {
            assert_eq!(unit.add(&of.lists[j], &of.ballots[j], &of.tapes[j]), j);
        }
        let finished = unit.run().unwrap();
        assert_eq!(finished.len(), 3);
        for (j, got) in finished.iter().enumerate() {
            assert_eq!(got.rounds, of.lists[j].gates().div_ceil(gates_per_round));
            assert_eq!(got.board, of.lists[j].run(&of.ballots[j], &of.tapes[j]).unwrap());
        }
    }
}

#[test]
fn a_byte_of_one_tape_never_serves_as_the_next_ones() {
    let of = Juries::new();
    let joined: Vec<u8> = of.tapes.concat();
    for (first, second) in [(0, 1), (1, 2)] {
        let start: usize = of.tapes[..first].iter().map(Vec::len).sum();
        let border = start + of.tapes[first].len();
        let end = border + of.tapes[second].len();
        let mut juries = of.pieces();
        // one byte too long and one too short: together they have the right length
        juries[first].tape = &joined[start..border + 1];
        juries[second].tape = &joined[border + 1..end];
        assert_eq!(dispatch(&juries, 4).unwrap_err(), refused(first, Reason::TapeLength, 0));
        juries[first].tape = &joined[start..border - 1];
        juries[second].tape = &joined[border - 1..end];
        assert_eq!(dispatch(&juries, 4).unwrap_err(), refused(first, Reason::TapeLength, 0));
    }
}

#[test]
fn neither_do_ballots_or_gates() {
    let of = Juries::new();
    let joined: Vec<u8> = of.ballots.concat();
    let lists: Vec<u32> = of.lists.iter().flat_map(|list| list.table()).copied().collect();
    let (bytes, gates) = (of.ballots[0].len(), of.lists[0].table().len());
    let mut juries = of.pieces();
    juries[0].ballots = &joined[..bytes + 1];
    juries[1].ballots = &joined[bytes + 1..bytes + of.ballots[1].len()];
    assert_eq!(dispatch(&juries, 4).unwrap_err(), refused(0, Reason::BallotsLength, 0));
    let mut juries = of.pieces();
    juries[0].table = &lists[..gates + 1];
    juries[1].table = &lists[gates + 1..gates + of.lists[1].table().len()];
    assert_eq!(dispatch(&juries, 4).unwrap_err(), refused(0, Reason::Table, 0));
    // a jury without conditional gates has no tape at all
    let mut juries = of.pieces();
    juries[2] = Jury { shape: Shape::graded(1, 2, 1), table: &[2, 0, 0, 0], ballots: &[1, 0], tape: &[] };
    assert_eq!(dispatch(&juries, 1).unwrap()[2].board.bytes(), [1]);
    juries[2].tape = &[0];
    assert_eq!(dispatch(&juries, 1).unwrap_err(), refused(2, Reason::TapeLength, 0));
}

#[test]
fn what_is_printed_of_a_jury_is_no_secret() {
    let jury = Jury { shape: Shape::graded(1, 2, 1), table: &[2, 0, 0, 0], ballots: &[0, 1], tape: &[] };
    assert_eq!(format!("{jury:?}"), "Jury(1 2 1: 4 numbers, 2 ballot bytes, 0 tape bits)");
}

#[test]
fn any_numbers_may_stand_in_a_shape() {
    let of = Juries::new();
    let most = usize::MAX;
    for (k, d, n) in
        [(most, 3, 3), (2, most, 3), (2, 3, most), (most, most, most), (most / 2 + 1, 2, 2), (most - 3, 0, 1)]
    {
        for j in 0..3 {
            let mut juries = of.pieces();
            juries[j].shape = Shape::graded(k, d, n);
            assert_eq!(dispatch(&juries, 4).unwrap_err(), refused(j, Reason::Shape, 0));
        }
        let every: Vec<Jury> =
            of.pieces().into_iter().map(|jury| Jury { shape: Shape::graded(k, d, n), ..jury }).collect();
        assert_eq!(dispatch(&every, 4).unwrap_err(), refused(0, Reason::Shape, 0));
    }
}

#[test]
fn refusals_name_the_first_bad_jury() {
    let of = Juries::new();
    let juries = of.pieces();
    let said = |juries: &[Jury], gates: usize| dispatch(juries, gates).unwrap_err();
    assert_eq!((said(&juries, 0).reason(), said(&juries, 65537).place()), (Reason::GatesPerRound, 0));
    assert_eq!(said(&[], 0).reason(), Reason::Juries);
    assert_eq!(said(&juries.repeat(3), 0).to_string(), "refused 19 0: there are no juries, or more than 8");
    let mut bad = juries.clone();
    bad[2].ballots = &of.ballots[1];
    assert_eq!((said(&bad, 1).reason(), said(&bad, 1).place()), (Reason::BallotsLength, 2));
    assert_eq!(
        said(&bad, 1).to_string(),
        "refused 4 2: the number of ballot bytes is not I (place 2, counted from 0: the jury)"
    );
    let mut gates = of.lists[1].table().to_vec();
    gates[4] = 8;
    bad[1].table = &gates;
    assert_eq!(
        said(&bad, 1).to_string(),
        "refused 3 1: a bad kind or operand (place 1, counted from 0: the jury; in it, place 1: the gate)"
    );
    assert_eq!(said(&bad, 0).reason(), Reason::GatesPerRound);
}
