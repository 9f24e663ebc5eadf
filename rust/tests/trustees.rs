//! A tally by trustees through the wrapper: the sums are the plain count's bytes, and a bad dealing is refused.
mod common;

use common::{ballots, numbers, refusal, BALLOTS, SHAPE};
use jugyvaros::trustees::{deal, tally, Dealing};
use jugyvaros::{count, GateList, Reason, Refusal, Shape};

#[test]
fn sums_are_the_closing_bytes() {
    let mut random = numbers(2);
    for shape in [SHAPE, Shape::ranked(4, 3), Shape::graded(1, 2, 1)] {
        let list = GateList::own(shape).unwrap();
        let ballots = ballots(shape, &mut random);
        let plain = count(shape, &ballots).unwrap();
        for t in 2..=5 {
            let dealing = list.deal(&ballots, t).unwrap();
            let tally = list.tally(&ballots, &dealing).unwrap();
            assert_eq!(tally.closing(), &plain[..shape.candidates]);
            let each = 2 * list.conditional() + shape.candidates;
            assert!((0..t).all(|p| tally.published(p).len() == each && tally.published(p).iter().all(|&bit| bit < 2)));
            for (i, &byte) in tally.closing().iter().enumerate() {
                assert_eq!((0..t).fold(0, |sum, p| sum ^ tally.published(p)[2 * list.conditional() + i]), byte);
            }
        }
    }
}

#[test]
fn the_wires_are_emptied_and_a_refusal_alters_nothing() {
    let list = GateList::own(SHAPE).unwrap();
    let mut random = numbers(1);
    let good = deal(&BALLOTS, list.conditional(), 3, || random(2) as u8);
    let wires_length = 3 * (list.inputs() + list.gates());
    let published_length = 3 * (2 * list.conditional() + 2);
    let run = |dealing: &Dealing| {
        let (mut wires, mut published) = (vec![9; wires_length], vec![9; published_length]);
        let said = tally(SHAPE, list.table(), &BALLOTS, dealing, &mut wires, &mut published);
        (said, wires, published)
    };
    let (said, wires, published) = run(&good);
    assert_eq!((said.unwrap().gates, said.unwrap().conditional), (list.gates(), list.conditional()));
    assert!(wires.iter().all(|&byte| byte == 0) && published.iter().all(|&byte| byte < 2));
    let refused = |dealing: Dealing| -> Refusal {
        let (said, wires, published) = run(&dealing);
        assert!(wires.iter().chain(&published).all(|&byte| byte == 9));
        assert_eq!(list.tally(&BALLOTS, &dealing).unwrap_err(), said.unwrap_err());
        said.unwrap_err()
    };
    let mut share = good.clone();
    share.ballot_shares[0] ^= 1;
    assert_eq!(refused(share), refusal(Reason::Dealing));
    let mut product = good.clone();
    product.triples[2] ^= 1;
    assert_eq!(refused(product), refusal(Reason::Dealing));
    let mut short = good.clone();
    short.triples = good.triples[1..].to_vec().into();
    assert_eq!(refused(short), refusal(Reason::PartTables));
    for trustees in [0, 1, 6, usize::MAX] {
        assert_eq!(refused(Dealing { trustees, ..good.clone() }), refusal(Reason::Trustees));
        let dealing = list.deal(&BALLOTS, trustees).unwrap();
        assert_eq!(list.tally(&BALLOTS, &dealing).unwrap_err(), refusal(Reason::Trustees));
    }
}
