//! What `tools/fair` passes on. It has already read and tested the command line.

use crate::draw::{Draw, Opinion};
use jugyvaros::Shape;
use std::path::PathBuf;

/// The word for an option that is not given.
const NONE: &str = "-";

/// A fair to rehearse.
#[derive(Debug)]
pub struct Options {
    pub draw: Draw,
    pub batches: u64,
    pub seed: String,
    pub jobs: usize,
    pub svg: Option<PathBuf>,
}

/// Reads K D N BATCHES JOBS LEVELS SPREAD SVG SEED; None for any other words.
pub fn read(words: impl IntoIterator<Item = String>) -> Option<Options> {
    let words: Vec<String> = words.into_iter().collect();
    let [k, d, n, batches, jobs, levels, spread, svg, seed] = words.as_slice() else {
        return None;
    };
    let number = |word: &String| word.parse::<usize>().ok();
    let opinion = if spread == NONE { Opinion::Uniform } else { Opinion::Spread(number(spread)?) };
    Some(Options {
        draw: Draw {
            shape: Shape { candidates: number(k)?, grades: number(d)?, ballots: number(n)? },
            levels: number(levels)?,
            opinion,
        },
        batches: batches.parse().ok()?,
        seed: seed.clone(),
        jobs: number(jobs)?,
        svg: (svg != NONE).then(|| svg.into()),
    })
}

#[cfg(test)]
mod tests {
    use super::*;

    fn of(line: &str) -> Option<Options> {
        read(line.split(' ').map(String::from))
    }

    #[test]
    fn a_fair() {
        let fair = of("3 0 5 7 2 4 1 a.svg lime").unwrap();
        assert_eq!(
            (fair.draw.shape, fair.draw.levels, fair.draw.opinion),
            (Shape::ranked(3, 5), 4, Opinion::Spread(1))
        );
        assert_eq!((fair.batches, fair.seed.as_str(), fair.jobs, fair.svg), (7, "lime", 2, Some("a.svg".into())));
        let fair = of("3 4 5 16 1 4 - - -").unwrap();
        assert_eq!((fair.draw.opinion, fair.svg, fair.seed.as_str()), (Opinion::Uniform, None, "-"));
    }

    #[test]
    fn no_fair() {
        for line in
            ["", "3 4 5", "3 4 5 16 1 4 - -", "3 4 5 16 1 4 - - 1 2", "3 4 -5 16 1 4 - - 1", "3 4 5 16 1 4 x - 1"]
        {
            assert!(of(line).is_none(), "{line}");
        }
    }
}
