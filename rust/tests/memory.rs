//! With the usual allocator: this program drops secrets, searches its own memory for them, and must find none. Run it
//! with `--release` too: only there could the optimiser remove writes that nobody reads.
use jugyvaros::Secret;
use std::fs::{read_to_string, File};
use std::os::unix::fs::FileExt;

const LENGTH: usize = 60_000;
const RUN: usize = 4096;

/// In how many places of the writable memory there is a long run of this byte. The caller passes the buffer in, so that
/// it does not reuse memory that was just freed.
fn runs(piece: &mut [u8], byte: u8) -> usize {
    let memory = File::open("/proc/self/mem").unwrap();
    let mut found = 0;
    for line in read_to_string("/proc/self/maps").unwrap().lines().filter(|line| line.contains(" rw")) {
        let (from, to) = line.split(' ').next().unwrap().split_once('-').unwrap();
        let (mut at, to) = (u64::from_str_radix(from, 16).unwrap(), u64::from_str_radix(to, 16).unwrap());
        let own = piece.as_ptr() as u64..piece.as_ptr() as u64 + piece.len() as u64;
        while at < to {
            let length = (to - at).min(piece.len() as u64) as usize;
            let is_own = at < own.end && own.start < at + length as u64;
            if !is_own && memory.read_exact_at(&mut piece[..length], at).is_ok() {
                found += usize::from(length == RUN && piece.iter().all(|&x| x == byte));
            }
            at += length as u64;
        }
    }
    found
}

#[test]
fn dropped_secrets_are_gone() {
    let mut piece = [0; RUN];
    let mut runs = |byte| runs(&mut piece, byte);
    // the search finds what is there, and what a plain vector leaves
    let kept = std::hint::black_box(vec![0xA1u8; LENGTH]);
    assert!(runs(kept[0]) > 0);
    drop(std::hint::black_box(vec![0xA3u8; LENGTH]));
    assert!(runs(0xA3) > 0);
    drop(std::hint::black_box(Secret::from(vec![0xA5u8; LENGTH])));
    assert_eq!(runs(0xA5), 0);
    drop(std::hint::black_box(Secret::from(vec![0xA7A7_A7A7_A7A7_A7A7u64; LENGTH / 8])));
    assert_eq!(runs(0xA7), 0);
}
