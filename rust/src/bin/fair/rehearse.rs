//! The fair itself: blocks of 64 juries, drawn, run and counted by several threads.

use crate::draw::{Draw, Random};
use jugyvaros::batch::JURIES;
use jugyvaros::{Batch, GateList, JuryRefusal};
use std::ops::Range;
use std::sync::atomic::{AtomicU64, Ordering::Relaxed};

/// The results of some juries.
#[derive(Clone, Debug, Default, PartialEq)]
pub struct Outcome {
    pub juries: u64,
    /// Each blend's wins.
    pub won: Vec<u64>,
    /// Juries with more than one winner.
    pub shared: u64,
    /// Juries in which a truly best blend is among the winners.
    pub best: u64,
    /// The core's processor time, in seconds.
    pub core: f64,
}

impl Outcome {
    pub fn of(candidates: usize) -> Outcome {
        Outcome { won: vec![0; candidates], ..Outcome::default() }
    }

    pub fn add(&mut self, other: &Outcome) {
        self.juries += other.juries;
        self.won.iter_mut().zip(&other.won).for_each(|(count, more)| *count += more);
        self.shared += other.shared;
        self.best += other.best;
        self.core += other.core;
    }

    /// Counts 64 juries: bit j of a blend's word says whether it won in jury j, or is truly best there.
    fn count(&mut self, closing: &[u64], best: &[u64]) {
        let (mut once, mut twice, mut hit) = (0, 0, 0);
        for ((&word, count), &best) in closing.iter().zip(&mut self.won).zip(best) {
            *count += u64::from(word.count_ones());
            twice |= once & word;
            once |= word;
            hit |= word & best;
        }
        self.juries += JURIES as u64;
        self.shared += u64::from(u64::count_ones(twice));
        self.best += u64::from(u64::count_ones(hit));
    }
}

/// A fair: its list, what is drawn, the seed and the number of blocks.
pub struct Fair<'a> {
    pub list: &'a GateList,
    pub draw: Draw,
    pub seed: u64,
    pub blocks: u64,
    /// How many blocks the threads have taken, and how many they have counted.
    taken: AtomicU64,
    counted: AtomicU64,
}

/// A thread takes several blocks at once, about this many numbers of ballots and tape: for small shapes, reading the
/// clock once a block would cost too much.
const WORDS: usize = 1 << 14;
const MOST_BLOCKS: usize = 64;

impl<'a> Fair<'a> {
    pub fn new(list: &'a GateList, draw: Draw, seed: u64, blocks: u64) -> Fair<'a> {
        Fair { list, draw, seed, blocks, taken: AtomicU64::new(0), counted: AtomicU64::new(0) }
    }

    pub fn counted(&self) -> u64 {
        self.counted.load(Relaxed)
    }

    /// One thread's work: it takes blocks until there are none left. A block has the same juries in every thread.
    pub fn work(&self) -> Result<Outcome, JuryRefusal> {
        let mut room = Room::new(self.list);
        let mut outcome = Outcome::of(self.draw.shape.candidates);
        loop {
            let first = self.taken.fetch_add(room.blocks as u64, Relaxed);
            let blocks = self.blocks.saturating_sub(first).min(room.blocks as u64) as usize;
            if blocks == 0 {
                return Ok(outcome);
            }
            room.draw(self, first, blocks);
            outcome.core += room.run(blocks)?;
            for (closing, best) in room.closing.iter().zip(&room.best).take(blocks) {
                outcome.count(closing, best);
            }
            self.counted.fetch_add(blocks as u64, Relaxed);
        }
    }
}

/// The buffers of one thread, for several blocks.
struct Room<'a> {
    list: &'a GateList,
    batch: Batch<'a>,
    blocks: usize,
    ballots: Vec<u64>,
    tapes: Vec<u64>,
    /// For each block: which blends are truly best, and which win.
    best: [[u64; 8]; MOST_BLOCKS],
    closing: [[u64; 8]; MOST_BLOCKS],
}

/// Block i's piece of a table with pieces of this size.
fn piece(i: usize, size: usize) -> Range<usize> {
    i * size..(i + 1) * size
}

impl<'a> Room<'a> {
    fn new(list: &'a GateList) -> Room<'a> {
        let blocks = (WORDS / (list.inputs() + list.conditional())).clamp(1, MOST_BLOCKS);
        Room {
            list,
            batch: Batch::new(list),
            blocks,
            ballots: vec![0; blocks * list.inputs()],
            tapes: vec![0; blocks * list.conditional()],
            best: [[0; 8]; MOST_BLOCKS],
            closing: [[0; 8]; MOST_BLOCKS],
        }
    }

    /// Draws the blocks from the first one on.
    fn draw(&mut self, fair: &Fair, first: u64, blocks: usize) {
        for i in 0..blocks {
            let mut random = Random::new(fair.seed, first + i as u64);
            self.best[i] = fair.draw.ballots(&mut random, &mut self.ballots[piece(i, self.list.inputs())]);
            self.tapes[piece(i, self.list.conditional())].iter_mut().for_each(|word| *word = random.word());
        }
    }

    /// Runs the list on them, and returns the core's processor time.
    fn run(&mut self, blocks: usize) -> Result<f64, JuryRefusal> {
        let (inputs, marks) = (self.list.inputs(), self.list.conditional());
        let began = seconds(Clock::Thread);
        for i in 0..blocks {
            let boards = self.batch.run(&self.ballots[piece(i, inputs)], &self.tapes[piece(i, marks)])?;
            self.closing[i][..boards.closing().len()].copy_from_slice(boards.closing());
        }
        Ok(seconds(Clock::Thread) - began)
    }
}

/// Linux's numbers for the clocks of this thread and of the whole process.
#[derive(Clone, Copy)]
pub enum Clock {
    Process = 2,
    Thread = 3,
}

/// The processor time so far, in seconds.
pub fn seconds(clock: Clock) -> f64 {
    #[repr(C)]
    struct Time {
        seconds: i64,
        nanoseconds: i64,
    }
    extern "C" {
        fn clock_gettime(clock: i32, time: *mut Time) -> i32;
    }
    let mut time = Time { seconds: 0, nanoseconds: 0 };
    // SAFETY: the time is a live local with the layout that the C library fills in.
    unsafe { clock_gettime(clock as i32, &mut time) };
    time.seconds as f64 + 1e-9 * time.nanoseconds as f64
}

#[cfg(test)]
mod tests {
    use super::*;
    use crate::draw::Opinion;
    use jugyvaros::batch::unpack;
    use jugyvaros::{count, Shape};

    fn outcome(list: &GateList, draw: Draw, blocks: u64, threads: usize) -> Outcome {
        let fair = Fair::new(list, draw, 11, blocks);
        let mut all = Outcome::of(draw.shape.candidates);
        std::thread::scope(|scope| {
            let workers: Vec<_> = (0..threads).map(|_| scope.spawn(|| fair.work().unwrap())).collect();
            workers.into_iter().for_each(|worker| all.add(&worker.join().unwrap()));
        });
        assert_eq!(fair.counted(), blocks);
        Outcome { core: 0.0, ..all }
    }

    #[test]
    fn counts_are_those_of_the_plain_count_whatever_the_threads() {
        for (shape, levels) in [(Shape::graded(3, 4, 5), 4), (Shape::ranked(4, 6), 3), (Shape::graded(1, 2, 1), 2)] {
            for opinion in [Opinion::Uniform, Opinion::Spread(2)] {
                let list = GateList::own(shape).unwrap();
                let draw = Draw { shape, levels, opinion };
                let mut expected = Outcome::of(shape.candidates);
                for block in 0..130 {
                    let mut words = vec![0; list.inputs()];
                    let best = draw.ballots(&mut Random::new(11, block), &mut words);
                    for j in 0..64 {
                        let won = count(shape, &unpack(&words, j)).unwrap().map(u64::from);
                        expected.won.iter_mut().zip(won).for_each(|(count, won)| *count += won);
                        expected.juries += 1;
                        expected.shared += u64::from(won.iter().sum::<u64>() > 1);
                        expected.best += u64::from((0..shape.candidates).any(|i| won[i] & best[i] >> j & 1 == 1));
                    }
                }
                for threads in [1, 2, 5] {
                    assert_eq!(outcome(&list, draw, 130, threads), expected);
                }
            }
        }
    }
}
