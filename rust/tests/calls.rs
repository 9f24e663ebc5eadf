//! The five entry points on slices, accepted and refused, and the words of a refusal.
mod common;

use common::{BALLOTS, SHAPE};
use jugyvaros::*;

fn refusal(number: usize, place: usize) -> Refusal {
    let reason = Reason::of(number).unwrap();
    assert_eq!(reason.number(), number);
    Refusal { reason, place }
}

#[test]
fn a_jury_is_measured_written_tested_run_and_counted() {
    let m = measure(SHAPE).unwrap();
    assert_eq!(m.inputs, 18);
    let mut table = vec![9; 4 * m.gates + 3];
    let size = write(SHAPE, &mut table).unwrap();
    assert_eq!((size.gates, size.conditional), (m.gates, m.conditional));
    assert_eq!(table[4 * m.gates..], [9, 9, 9]);
    let table = &table[..4 * m.gates];
    assert_eq!(test(SHAPE, table), Ok(size));
    let tape = vec![1; m.conditional];
    let mut wires = vec![7; m.inputs + m.gates];
    let mut board = vec![7; m.conditional + 2];
    assert_eq!(run(SHAPE, table, &BALLOTS, &tape, &mut wires, &mut board), Ok(size));
    assert_eq!(board[m.conditional..], [1, 0]);
    assert!(wires.iter().all(|w| *w == 0));
    assert_eq!(count(SHAPE, &BALLOTS), Ok([1, 0, 0, 0, 0, 0, 0, 0]));
}

#[test]
fn refusals_have_number_and_place_and_alter_nothing() {
    let outside = Shape { ballots: 256, ..SHAPE };
    assert_eq!(measure(outside), Err(refusal(1, 0)));
    let mut short = [5; 8];
    assert_eq!(write(SHAPE, &mut short), Err(refusal(2, 0)));
    assert_eq!(short, [5; 8]);
    assert_eq!(test(SHAPE, &[2, 17, 0, 0, 2, 19, 0, 0]), Err(refusal(3, 1)));
    assert_eq!(test(SHAPE, &[]), Err(refusal(2, 0)));
    assert_eq!(count(SHAPE, &BALLOTS[..17]), Err(refusal(4, 0)));
    let mut bad = BALLOTS;
    bad[17] = 2;
    assert_eq!(count(SHAPE, &bad), Err(refusal(5, 17)));
    let list = [2, 17, 0, 0, 4, 0, 1, 0];
    let (mut wires, mut board) = ([7; 20], [7; 3]);
    assert_eq!(run(SHAPE, &list, &BALLOTS, &[2], &mut wires, &mut board), Err(refusal(8, 0)));
    assert_eq!(run(SHAPE, &list, &BALLOTS, &[1], &mut wires[..19], &mut board), Err(refusal(9, 0)));
    assert_eq!((wires, board), ([7; 20], [7; 3]));
    assert_eq!(run(SHAPE, &list, &BALLOTS, &[1], &mut wires, &mut board), Ok(Size { gates: 2, conditional: 1 }));
    assert_eq!(board, [0, 1, 0]);
}

#[test]
fn texts_have_number_and_place_and_alter_nothing() {
    let refused = |text: &str| read_text(SHAPE, text.as_bytes(), &mut [9; 8]).unwrap_err();
    assert_eq!(refused(""), refusal(2, 0));
    assert_eq!(refused("2 18\n02 1\n"), refusal(23, 1));
    assert_eq!(refused("2 17\n2 19\n"), refusal(3, 1));
    assert_eq!(refused("0\n1"), refusal(23, 1));
    let mut short = [9; 7];
    assert_eq!(read_text(SHAPE, b"0\n1\n", &mut short), Err(refusal(24, 0)));
    assert_eq!(short, [9; 7]);
    let list = [2, 17, 0, 0, 7, 18, 0, 5];
    assert_eq!(text(SHAPE, &list).unwrap(), "2 17\n7 18 0 5\n");
    let mut short = [9; 13];
    assert_eq!(write_text(SHAPE, &list, &mut short), Err(refusal(24, 0)));
    assert_eq!(short, [9; 13]);
}

#[test]
fn a_refusal_says_what_is_wrong() {
    let gate = "refused 3 7: a bad kind or operand (place 7, counted from 0: the gate)";
    assert_eq!(refusal(3, 7).to_string(), gate);
    assert_eq!(refusal(1, 0).to_string(), "refused 1 0: k, d or n is outside its limits");
    assert_eq!([0, 21, 22, 25, 255].map(Reason::of), [None; 5]);
}

/// A name as C has it: in capitals, with underscores.
fn in_capitals(name: &str) -> String {
    let apart =
        |letter: char| if letter.is_uppercase() { format!("_{letter}") } else { letter.to_uppercase().to_string() };
    name.chars().map(apart).collect::<String>().trim_start_matches('_').to_string()
}

#[test]
fn reasons_are_those_of_the_header() {
    let header = include_str!("../../c/jugyvaros.h");
    let rows: Vec<(String, usize, String)> = header
        .lines()
        .filter_map(|line| line.strip_prefix("#define JUGY_")?.strip_suffix(" */")?.split_once("/* "))
        .filter_map(|(name, words)| Some((name.trim().split_once(' ')?, words)))
        .filter(|((name, _), _)| !name.ends_with("_ANSWER"))
        .map(|((name, number), words)| (name.to_string(), number.trim().parse().unwrap(), words.to_string()))
        .collect();
    let own = |reason: &Reason| {
        let place = reason.unit().map_or(String::new(), |unit| format!("; place: {unit}"));
        (in_capitals(&format!("{reason:?}")), reason.number(), reason.words().to_string() + &place)
    };
    assert_eq!(Reason::ALL.iter().map(own).collect::<Vec<_>>(), rows);
    assert_eq!(rows.len(), 25);
}
