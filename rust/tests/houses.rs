//! Houses as processes, compared with the single call and with the plain count.
mod common;

use common::{ballots, numbers, SHAPE};
use jugyvaros::{count, GateList, Shape};
use std::io::{ErrorKind, Write};
use std::process::{Command, Output, Stdio};
use std::time::{Duration, Instant};

fn houses(words: &[String], ballots: &[u8]) -> Output {
    let mut program = Command::new(env!("CARGO_BIN_EXE_houses"))
        .args(words)
        .stdin(Stdio::piped())
        .stdout(Stdio::piped())
        .stderr(Stdio::piped())
        .spawn()
        .unwrap();
    match program.stdin.take().unwrap().write_all(ballots) {
        // a program that refuses its arguments may end before it reads the ballots
        Err(error) if error.kind() == ErrorKind::BrokenPipe => {}
        written => written.unwrap(),
    }
    program.wait_with_output().unwrap()
}

fn words(houses: usize, shape: Shape, more: &str) -> Vec<String> {
    let numbers = [houses, shape.candidates, shape.grades, shape.ballots].map(|number| number.to_string());
    numbers.into_iter().chain(more.split_whitespace().map(String::from)).collect()
}

/// The numbers after a word of the output.
fn told(output: &Output, word: &str) -> Vec<u64> {
    let text = String::from_utf8(output.stdout.clone()).unwrap();
    let line = text.lines().find(|line| line.starts_with(word)).unwrap_or_else(|| panic!("no {word} in {text}"));
    line.split(' ').skip(1).map(|number| number.parse().unwrap()).collect()
}

#[test]
fn houses_apart_close_as_the_one_call() {
    let mut random = numbers(34);
    for shape in [SHAPE, Shape::graded(3, 2, 4), Shape::ranked(3, 3), Shape::ranked(4, 5)] {
        let list = GateList::own(shape).unwrap();
        for t in 2..=5 {
            let ballots = ballots(shape, &mut random);
            let output = houses(&words(t, shape, ""), &ballots);
            assert!(output.status.success(), "{}", String::from_utf8_lossy(&output.stderr));
            let plain = count(shape, &ballots).unwrap();
            let one = list.tally(&ballots, &list.deal(&ballots, t).unwrap()).unwrap();
            let winners: Vec<u8> = told(&output, "winners").into_iter().map(|byte| byte as u8).collect();
            assert_eq!(winners, plain[..shape.candidates]);
            assert_eq!(winners, one.closing());
            assert_eq!(told(&output, "rounds")[0], list.rounds() as u64);
            assert_eq!(told(&output, "exchanges")[0], told(&output, "rounds")[0] + 1);
            assert!(told(&output, "bytes")[0] > 0);
        }
    }
}

#[test]
fn a_fault_is_an_error_and_no_hang() {
    let ballots = ballots(SHAPE, &mut numbers(7));
    for fault in ["--leave 1 2", "--short 0 1", "--short 2 0", "--silent 2 3", "--leave 0 0"] {
        let start = Instant::now();
        let output = houses(&words(3, SHAPE, &format!("--wait 500 {fault}")), &ballots);
        assert!(!output.status.success(), "{fault}");
        assert!(output.stdout.is_empty(), "{fault}");
        assert!(start.elapsed() < Duration::from_secs(20), "{fault}");
    }
    assert!(!houses(&words(6, SHAPE, ""), &ballots).status.success());
    assert!(!houses(&words(3, SHAPE, ""), &ballots[1..]).status.success());
}
