//! Dropped ballots and tapes leave nothing in memory: this program's allocator looks at every freed buffer of a certain
//! length. Run it with `--release` too: only there could the optimiser remove writes that nobody reads.
mod common;

use common::{ballots, numbers};
use jugyvaros::batch::{pack, unpack};
use jugyvaros::{Batch, Dispatch, GateList, Secret, Shape, Urn};
use std::alloc::{GlobalAlloc, Layout, System};
use std::sync::atomic::{AtomicUsize, Ordering::SeqCst};

/// The length of the buffers to look at, how many of them were freed, and how many of those were not empty.
static MARKED: AtomicUsize = AtomicUsize::new(0);
static SEEN: AtomicUsize = AtomicUsize::new(0);
static FULL: AtomicUsize = AtomicUsize::new(0);

struct Looking;

// SAFETY: the system's allocator does all the work; a buffer is read byte by byte before it is freed.
unsafe impl GlobalAlloc for Looking {
    unsafe fn alloc(&self, layout: Layout) -> *mut u8 {
        System.alloc(layout)
    }

    unsafe fn dealloc(&self, buffer: *mut u8, layout: Layout) {
        if layout.size() == MARKED.load(SeqCst) {
            SEEN.fetch_add(1, SeqCst);
            let full = (0..layout.size()).any(|i| buffer.add(i).read_volatile() != 0);
            FULL.fetch_add(usize::from(full), SeqCst);
        }
        System.dealloc(buffer, layout);
    }
}

#[global_allocator]
static ALLOCATOR: Looking = Looking;

/// How many buffers of that length `work` frees, and how many of them are not empty.
fn left(length: usize, work: impl FnOnce()) -> (usize, usize) {
    SEEN.store(0, SeqCst);
    FULL.store(0, SeqCst);
    MARKED.store(length, SeqCst);
    work();
    MARKED.store(0, SeqCst);
    (SEEN.load(SeqCst), FULL.load(SeqCst))
}

/// A single test, so that no other thread frees buffers meanwhile.
#[test]
fn buffers_are_emptied() {
    // the allocator does see what is left: a plain vector is not emptied
    assert_eq!(left(4099, || drop(std::hint::black_box(vec![1u8; 4099]))), (1, 1));
    assert_eq!(left(4099, || drop(Secret::from(vec![1u8; 4099]))), (1, 0));
    assert_eq!(left(8 * 517, || drop(Secret::from(vec![u64::MAX; 517]))), (1, 0));
    // a truncated vector still holds what came after its end
    let mut cut = vec![1u8; 4099];
    cut.truncate(5);
    assert_eq!(left(4099, || drop(Secret::from(cut))), (1, 0));

    let shape = Shape::graded(3, 5, 37);
    let list = GateList::own(shape).unwrap();
    let mut random = numbers(7);
    let ballots: Vec<Vec<u8>> = (0..64).map(|_| ballots(shape, &mut random)).collect();
    let (inputs, marks, wires) = (list.inputs(), list.conditional(), list.inputs() + list.gates());
    assert_eq!(left(marks, || drop(list.fresh_tape().unwrap())), (1, 0));
    let tape = list.fresh_tape().unwrap();
    assert_eq!(left(wires, || drop(list.run(&ballots[0], &tape).unwrap())), (1, 0));
    let in_dispatch = || {
        let mut unit = Dispatch::new(100);
        unit.add(&list, &ballots[0], &tape);
        unit.run().unwrap();
    };
    assert_eq!(left(inputs, in_dispatch), (1, 0));
    assert_eq!(left(marks, in_dispatch), (1, 0));
    let mut urn = Urn::new(3, 5, 50).unwrap();
    for (juror, ballot) in (1..).zip(ballots[0].chunks(15)) {
        urn.admit(juror, ballot).unwrap();
    }
    assert_eq!(left(50 * 17, || drop(urn)), (1, 0));
    for length in [3 * inputs, 9 * marks, 3 * wires] {
        let tally = || drop(list.tally(&ballots[0], &list.deal(&ballots[0], 3).unwrap()).unwrap());
        assert_eq!(left(length, tally), (1, 0));
    }
    let words = pack(&ballots);
    assert_eq!(left(inputs, || drop(unpack(&words, 1))), (1, 0));
    let tapes = Secret::random_words(marks).unwrap();
    assert_eq!(left(8 * wires, || drop(Batch::new(&list).run(&words, &tapes).unwrap().winners(0))), (1, 0));
    assert_eq!(left(8 * inputs, || drop(words)), (1, 0));
    assert_eq!(left(8 * marks, || drop(tapes)), (1, 0));
}
