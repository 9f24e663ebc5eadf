//! Separate trustees in one program, compared with the single call: published bits and closing bytes are the same.

use jugyvaros::trustee::Seat;
use jugyvaros::{GateList, Reason, Shape};

const SHAPE: Shape = Shape { candidates: 2, grades: 3, ballots: 2 };

const BALLOTS: [u8; 12] = [1, 0, 0, 0, 1, 0, 0, 0, 1, 0, 1, 0];

#[test]
fn apart_as_together() {
    let list = GateList::own(SHAPE).unwrap();
    let (inputs, conditional) = (list.inputs(), list.conditional());
    let (levels, rounds) = (list.levels(), list.rounds());
    for trustees in 2..=5 {
        let dealing = list.deal(&BALLOTS, trustees).unwrap();
        let (own, each) = (inputs + list.gates(), 2 * conditional + SHAPE.candidates);
        let (mut wires, mut published) = (vec![9; trustees * own], vec![9; trustees * each]);
        let mut heard = vec![0; 2 * conditional];
        let seat = |number| Seat { shape: SHAPE, table: list.table(), trustees, number };
        let shares = |p: usize| &dealing.ballot_shares[inputs * p..inputs * (p + 1)];
        let triples = |p: usize| &dealing.triples[3 * conditional * p..3 * conditional * (p + 1)];
        for (p, (wires, published)) in wires.chunks_mut(own).zip(published.chunks_mut(each)).enumerate() {
            seat(p).start(shares(p), triples(p), wires, published).unwrap();
        }
        for round in 0..=rounds {
            for (p, (wires, published)) in wires.chunks_mut(own).zip(published.chunks_mut(each)).enumerate() {
                let depths = seat(p).round(round, &levels, triples(p), &heard, wires, published).unwrap();
                assert_eq!(depths.rounds, rounds);
            }
            for (j, sum) in heard.iter_mut().enumerate() {
                *sum = published.iter().skip(j).step_by(each).fold(0, |sum, bit| sum ^ bit);
            }
        }
        let together = list.tally(&BALLOTS, &dealing).unwrap();
        assert!(published.chunks(each).enumerate().all(|(p, bits)| bits == together.published(p)));
        for j in 0..SHAPE.candidates {
            let sum = published.iter().skip(2 * conditional + j).step_by(each).fold(0, |sum, bit| sum ^ bit);
            assert_eq!(sum, together.closing()[j]);
        }
        for (p, wires) in wires.chunks_mut(own).enumerate() {
            seat(p).finish(wires).unwrap();
        }
        assert!(wires.iter().all(|&bit| bit == 0));
        let (wires, published) = (&mut wires[..own], &mut published[..each]);
        let refusal = seat(0).round(rounds + 1, &levels, triples(0), &heard, wires, published).unwrap_err();
        assert_eq!(refusal.reason, Reason::Round);
    }
}
