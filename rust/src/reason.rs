//! Why a call is refused: each reason once, with its number, its words and what its place counts. The words are those
//! of `c/jugyvaros.h`, which a test checks, so that a reason reads the same in every language.

use std::fmt;

/// Makes the enum of the reasons and the table of their words from one row for each reason.
macro_rules! reasons {
    ($($name:ident = $number:literal: $words:literal $(at $unit:literal)?;)*) => {
        /// Why a call is refused. The numbers are those of docs/REQUIREMENTS.md and `c/jugyvaros.h`.
        #[derive(Clone, Copy, Debug, PartialEq, Eq, Hash)]
        #[repr(usize)]
        pub enum Reason {
            $(
                #[doc = concat!("Reason ", $number, ": ", $words, $("; the place is ", $unit,)? ".")]
                $name = $number,
            )*
        }

        impl Reason {
            /// Every reason, in the order of the numbers.
            pub const ALL: &'static [Reason] = &[$(Reason::$name),*];

            /// What is wrong, in words.
            pub fn words(self) -> &'static str {
                match self {
                    $(Reason::$name => $words,)*
                }
            }

            /// What the place counts, if the reason has one.
            pub fn unit(self) -> Option<&'static str> {
                match self {
                    $(Reason::$name => reasons!(@unit $($unit)?),)*
                }
            }
        }
    };
    (@unit) => { None };
    (@unit $unit:literal) => { Some($unit) };
}

reasons! {
    Shape = 1: "k, d or n is outside its limits";
    Table = 2: "writing: the table is too short; otherwise: not k to 1,048,576 whole gates";
    Gate = 3: "a bad kind or operand" at "the gate";
    BallotsLength = 4: "the number of ballot bytes is not I";
    BallotByte = 5: "a byte of a ballot is neither 0 nor 1" at "the byte";
    BallotRow = 6: "graded: a row has no 1, or more than one" at "the row, b k + c";
    TapeLength = 7: "the tape's length is not C";
    TapeByte = 8: "a byte of the tape is neither 0 nor 1" at "the byte";
    WiresLength = 9: "the wire table's length is not I + G";
    BoardLength = 10: "the board's length is not C + k";
    NotAsymmetric = 11: "ranked: two before each other, or one before itself" at "the first such byte";
    NotWeakOrder = 12: "ranked: i is before j, a third is not after i and not before j" at "the ballot";
    Urn = 13: "the urn is not sound";
    Juror = 14: "the juror is not 1 to 255, or is already in (admission), or not in (withdrawal)";
    FullUrn = 15: "the urn has no free slot";
    Trustees = 16: "there are fewer than 2 or more than 5 trustees";
    PartTables = 17: "one of the trustees' four tables has the wrong length";
    Dealing = 18: "a share is neither 0 nor 1, or shares do not add up to a ballot byte or product";
    Juries = 19: "there are no juries, or more than 8";
    GatesPerRound = 20: "gates_per_round is 0 or above 65,536";
    Line = 23: "a malformed line, an unknown kind, or a number of 2^32 or more" at "the line";
    Output = 24: "the output is too short";
    Levels = 200: "the level table is not G numbers long, or its levels are not the list's";
    Round = 201: "the round is above R";
    Heard = 202: "the sums heard are not 2 C bits";
}

impl Reason {
    /// The reason with this number, if there is one.
    pub fn of(number: usize) -> Option<Reason> {
        Reason::ALL.iter().copied().find(|reason| reason.number() == number)
    }

    /// Its number in the requirements.
    pub fn number(self) -> usize {
        self as usize
    }
}

/// The first reason that applies, and its place, counted from 0.
#[derive(Clone, Copy, Debug, PartialEq, Eq)]
pub struct Refusal {
    /// Why the call is refused.
    pub reason: Reason,
    /// Which gate, byte, row, ballot or line, counted from 0; 0 if the reason has no place.
    pub place: usize,
}

impl fmt::Display for Refusal {
    fn fmt(&self, f: &mut fmt::Formatter<'_>) -> fmt::Result {
        write!(f, "refused {} {}: {}", self.reason.number(), self.place, self.reason.words())?;
        match self.reason.unit() {
            Some(unit) => write!(f, " (place {}, counted from 0: {unit})", self.place),
            None => Ok(()),
        }
    }
}

impl std::error::Error for Refusal {}

/// The refusal of a call for several juries: which jury, and what is wrong with it.
#[derive(Clone, Copy, Debug, PartialEq, Eq)]
pub struct JuryRefusal {
    /// The jury that has the fault, counted from 0; `None` if the call as a whole is refused.
    pub jury: Option<usize>,
    /// The reason, and its place in that jury's own data.
    pub refusal: Refusal,
}

impl JuryRefusal {
    /// Why the call is refused.
    pub fn reason(self) -> Reason {
        self.refusal.reason
    }

    /// The place that the core answers: the jury, if one has the fault.
    pub fn place(self) -> usize {
        self.jury.unwrap_or(self.refusal.place)
    }
}

impl From<Refusal> for JuryRefusal {
    fn from(refusal: Refusal) -> Self {
        JuryRefusal { jury: None, refusal }
    }
}

impl fmt::Display for JuryRefusal {
    fn fmt(&self, f: &mut fmt::Formatter<'_>) -> fmt::Result {
        let Some(jury) = self.jury else { return self.refusal.fmt(f) };
        let reason = self.reason();
        let (number, words) = (reason.number(), reason.words());
        write!(f, "refused {number} {jury}: {words} (place {jury}, counted from 0: the jury")?;
        match reason.unit() {
            Some(unit) => write!(f, "; in it, place {}: {unit})", self.refusal.place),
            None => write!(f, ")"),
        }
    }
}

impl std::error::Error for JuryRefusal {}
