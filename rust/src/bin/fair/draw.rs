//! Random juries, 64 at a time: a word holds a bit for each of them, so that one operation serves all.
//!
//! A juror's opinion of a blend is a level, best first, with one word for each level: bit j of word g is 1 if the juror
//! of jury j is at level g. Grades are levels. A ranking puts a blend before another if its level is better; equal
//! levels are ties.

use jugyvaros::Shape;

/// The generator xoshiro256++ by Blackman and Vigna: fast, and good enough for rehearsals. Not for secrets.
pub struct Random([u64; 4]);

/// The output function of SplitMix64, by Steele, Lea and Flood: different inputs give different, unlike outputs.
fn mixed(number: u64) -> u64 {
    let z = number.wrapping_add(0x9E37_79B9_7F4A_7C15);
    let z = (z ^ z >> 30).wrapping_mul(0xBF58_476D_1CE4_E5B9);
    let z = (z ^ z >> 27).wrapping_mul(0x94D0_49BB_1331_11EB);
    z ^ z >> 31
}

impl Random {
    /// A generator for one block of 64 juries. Each block has its own, so any processor may draw any block.
    pub fn new(seed: u64, block: u64) -> Random {
        let start = mixed(seed) ^ mixed(!block);
        Random([1, 2, 3, 4].map(|i| mixed(start.wrapping_add(i))))
    }

    #[inline]
    pub fn word(&mut self) -> u64 {
        let [a, b, c, d] = self.0;
        let word = a.wrapping_add(d).rotate_left(23).wrapping_add(a);
        let (c, d) = (c ^ a, d ^ b);
        self.0 = [a ^ d, b ^ c, c ^ b << 17, d.rotate_left(45)];
        word
    }
}

/// The largest number of rounds of drawing.
const ROUNDS: usize = 64;

/// One of L levels for each jury, all equally likely: each jury draws binary digits until their number is below L.
///
/// After one round a jury has no level yet with a probability of at most 3/8. The chance that any jury has none after
/// all rounds is below 1 in 10^25; such a jury gets the best level.
#[inline]
fn uniform<const L: usize>(random: &mut Random) -> [u64; L] {
    let mut row = [0; L];
    let mut open = u64::MAX;
    for _ in 0..ROUNDS {
        let digits = [L > 4, L > 2, L > 1].map(|used| if used { random.word() } else { 0 });
        let mut taken = 0;
        for (level, word) in row.iter_mut().enumerate() {
            // bit j: jury j has drawn the digits of this level
            let met = (0..3).fold(open, |met, i| met & if level >> (2 - i) & 1 == 1 { digits[i] } else { !digits[i] });
            *word |= met;
            taken |= met;
        }
        open &= !taken;
        if open == 0 {
            return row;
        }
    }
    row[0] |= open;
    row
}

/// Moves each juror a level up, a level down or not at all, with probabilities 1/4, 1/4 and 1/2; never past an end.
#[inline]
fn step<const L: usize>(row: [u64; L], random: &mut Random) -> [u64; L] {
    let (moves, up) = (random.word(), random.word());
    let (better, worse) = (moves & up, moves & !up);
    std::array::from_fn(|g| {
        let from_above = row[g.saturating_sub(1)] & worse;
        let from_below = row[(g + 1).min(L - 1)] & better;
        let at_end = if g == 0 { row[g] & better } else { 0 } | if g == L - 1 { row[g] & worse } else { 0 };
        row[g] & !moves | if g > 0 { from_above } else { 0 } | if g < L - 1 { from_below } else { 0 } | at_end
    })
}

/// In which juries the juror prefers i to j, that is, i's level is better.
#[inline]
fn before<const L: usize>(i: &[u64; L], j: &[u64; L]) -> u64 {
    let (mut found, mut better) = (0, 0);
    for g in 1..L {
        better |= i[g - 1];
        found |= better & j[g];
    }
    found
}

/// How jurors come to their levels.
#[derive(Clone, Copy, Debug, PartialEq, Eq)]
pub enum Opinion {
    /// Every level is equally likely.
    Uniform,
    /// Each blend of a jury has a true level, drawn uniformly; every juror takes this many random steps away from it.
    Spread(usize),
}

/// What is to be drawn.
#[derive(Clone, Copy, Debug)]
pub struct Draw {
    pub shape: Shape,
    /// 1 to 8: the number of grades, or of levels that the jurors of a ranking can tell apart.
    pub levels: usize,
    pub opinion: Opinion,
}

impl Draw {
    /// Draws the ballots of 64 juries, and returns which blends are truly best, a word for each blend; all 0 without
    /// true levels.
    pub fn ballots(&self, random: &mut Random, ballots: &mut [u64]) -> [u64; 8] {
        match self.levels {
            1 => self.with_levels::<1>(random, ballots),
            2 => self.with_levels::<2>(random, ballots),
            3 => self.with_levels::<3>(random, ballots),
            4 => self.with_levels::<4>(random, ballots),
            5 => self.with_levels::<5>(random, ballots),
            6 => self.with_levels::<6>(random, ballots),
            7 => self.with_levels::<7>(random, ballots),
            _ => self.with_levels::<8>(random, ballots),
        }
    }

    fn with_levels<const L: usize>(&self, random: &mut Random, ballots: &mut [u64]) -> [u64; 8] {
        let k = self.shape.candidates;
        match self.opinion {
            Opinion::Uniform => {
                self.fill(ballots, |_| uniform::<L>(random));
                [0; 8]
            }
            Opinion::Spread(steps) => {
                let mut truth = [[0; L]; 8];
                truth[..k].iter_mut().for_each(|row| *row = uniform(random));
                self.fill(ballots, |blend| (0..steps).fold(truth[blend], |row, _| step(row, random)));
                best(&truth[..k])
            }
        }
    }

    /// Fills the ballots from the jurors' levels, ballot after ballot and blend after blend.
    #[inline]
    fn fill<const L: usize>(&self, ballots: &mut [u64], mut level: impl FnMut(usize) -> [u64; L]) {
        let k = self.shape.candidates;
        if !self.shape.is_ranked() {
            for (row, words) in ballots.chunks_exact_mut(L).enumerate() {
                words.copy_from_slice(&level(row % k));
            }
            return;
        }
        let mut rows = [[0; L]; 8];
        for ballot in ballots.chunks_exact_mut(k * k) {
            rows[..k].iter_mut().enumerate().for_each(|(blend, row)| *row = level(blend));
            for (x, word) in ballot.iter_mut().enumerate() {
                *word = before(&rows[x / k], &rows[x % k]);
            }
        }
    }
}

/// Which blends have the best level of their jury.
fn best<const L: usize>(truth: &[[u64; L]]) -> [u64; 8] {
    let mut found = [0; 8];
    let mut open = u64::MAX;
    for g in 0..L {
        let met = truth.iter().fold(0, |met, row| met | row[g]) & open;
        for (word, row) in found.iter_mut().zip(truth) {
            *word |= met & row[g];
        }
        open &= !met;
    }
    found
}

#[cfg(test)]
mod tests {
    use super::*;
    use jugyvaros::batch::unpack;
    use jugyvaros::count;

    fn draw(k: usize, d: usize, n: usize, levels: usize, opinion: Opinion) -> Draw {
        Draw { shape: Shape { candidates: k, grades: d, ballots: n }, levels, opinion }
    }

    /// How often each level is drawn, over many juries.
    fn frequencies<const L: usize>(mut row: impl FnMut(&mut Random) -> [u64; L]) -> [f64; L] {
        const BLOCKS: u64 = 4000;
        let mut counts = [0; L];
        for block in 0..BLOCKS {
            let row = row(&mut Random::new(1, block));
            assert_eq!(row.iter().fold(0, |sum, word| sum + word.count_ones()), 64);
            assert_eq!(row.iter().fold(0, |all, word| all | word), u64::MAX);
            row.iter().zip(&mut counts).for_each(|(word, count)| *count += u64::from(word.count_ones()));
        }
        counts.map(|count| count as f64 / (64 * BLOCKS) as f64)
    }

    /// Within five standard errors.
    fn near(got: &[f64], expected: &[f64]) {
        for (got, expected) in got.iter().zip(expected) {
            assert!(
                (got - expected).abs() <= 5.0 * (expected * (1.0 - expected) / 256_000.0).sqrt(),
                "{got} for {expected}"
            );
        }
    }

    #[test]
    fn levels_are_equally_likely() {
        near(&frequencies(uniform::<1>), &[1.0]);
        near(&frequencies(uniform::<2>), &[0.5; 2]);
        near(&frequencies(uniform::<3>), &[1.0 / 3.0; 3]);
        near(&frequencies(uniform::<5>), &[0.2; 5]);
        near(&frequencies(uniform::<7>), &[1.0 / 7.0; 7]);
        near(&frequencies(uniform::<8>), &[0.125; 8]);
    }

    #[test]
    fn steps_spread_and_stay_within() {
        let middle = [0, 0, u64::MAX, 0, 0];
        near(&frequencies(|random| step(middle, random)), &[0.0, 0.25, 0.5, 0.25, 0.0]);
        near(&frequencies(|random| step(step(middle, random), random)), &[1.0, 4.0, 6.0, 4.0, 1.0].map(|x| x / 16.0));
        near(&frequencies(|random| step([u64::MAX, 0, 0], random)), &[0.75, 0.25, 0.0]);
        near(&frequencies(|random| step([0, u64::MAX], random)), &[0.25, 0.75]);
        near(&frequencies(|random| step([u64::MAX], random)), &[1.0]);
    }

    #[test]
    fn ballots_are_accepted_and_differ_between_juries() {
        for (k, d) in [(1, 0), (1, 2), (3, 0), (2, 3), (8, 0), (8, 7), (5, 5)] {
            for opinion in [Opinion::Uniform, Opinion::Spread(0), Opinion::Spread(3)] {
                let levels = if d == 0 { k } else { d };
                let drawn = draw(k, d, 9, levels, opinion);
                let mut words = vec![7; 9 * k * if d == 0 { k } else { d }];
                drawn.ballots(&mut Random::new(5, 0), &mut words);
                let juries: Vec<_> = (0..64).map(|j| unpack(&words, j)).collect();
                assert!(juries.iter().all(|jury| count(drawn.shape, jury).is_ok()));
                assert!(k == 1 || juries[0] != juries[1]);
                let again = &mut vec![9; words.len()];
                drawn.ballots(&mut Random::new(5, 0), again);
                assert_eq!(&words, again);
                drawn.ballots(&mut Random::new(5, 1), again);
                assert!(k == 1 || &words != again);
            }
        }
    }

    #[test]
    fn jurors_without_spread_agree_with_the_truth() {
        for d in [0, 4] {
            let drawn = draw(4, d, 5, 4, Opinion::Spread(0));
            let mut words = vec![0; 5 * 4 * 4];
            let best = drawn.ballots(&mut Random::new(3, 9), &mut words);
            for j in 0..64 {
                // all jurors agree, so exactly the truly best blends win
                let closing = count(drawn.shape, &unpack(&words, j)).unwrap();
                assert_eq!(closing.to_vec(), unpack(&best, j).to_vec());
            }
        }
    }

    #[test]
    fn a_better_level_is_before() {
        let row = |level: usize| -> [u64; 3] { std::array::from_fn(|g| u64::from(g == level)) };
        for (i, j) in (0..9).map(|x| (x / 3, x % 3)) {
            assert_eq!(before(&row(i), &row(j)), u64::from(i < j));
        }
    }
}
