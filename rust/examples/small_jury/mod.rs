//! The jury of both examples: two blends, three grades, three ballots.
use jugyvaros::Shape;

pub const SHAPE: Shape = Shape::graded(2, 3, 3);

pub const BALLOTS: [u8; 18] = [
    1, 0, 0, 0, 1, 0, // first ballot: blend 0 best, blend 1 middle
    0, 1, 0, 0, 1, 0, //
    0, 1, 0, 0, 0, 1,
];
