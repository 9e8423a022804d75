//! Why a proved call was refused.

use std::fmt;

/// The lowest number that applies, by its meaning.
#[derive(Clone, Copy, Debug, PartialEq, Eq)]
#[must_use = "a refused call did nothing"]
pub enum Refusal {
    TooManyParticles = 1,
    TooManyEntries = 2,
    ShortBuffer = 3,
    OutOfRange = 4,
    BadPattern = 5,
    BadPlan = 6,
    LongEnvelope = 7,
    BadSettings = 8,
    /// Given by the bench program alone.
    BadText = 9,
}

impl Refusal {
    pub const ALL: [Self; 9] = [
        Self::TooManyParticles,
        Self::TooManyEntries,
        Self::ShortBuffer,
        Self::OutOfRange,
        Self::BadPattern,
        Self::BadPlan,
        Self::LongEnvelope,
        Self::BadSettings,
        Self::BadText,
    ];

    #[must_use]
    pub fn number(self) -> u8 {
        self as u8
    }
}

/// What a proved call's answer means: 0 is acceptance. No call answers a number above 8, as is proved.
#[inline]
pub(crate) fn accepted(number: u8) -> Result<(), Refusal> {
    match number {
        0 => Ok(()),
        _ => Err(Refusal::ALL[number as usize - 1]),
    }
}

impl fmt::Display for Refusal {
    fn fmt(&self, f: &mut fmt::Formatter<'_>) -> fmt::Result {
        f.write_str(match self {
            Self::TooManyParticles => "more than 1,024 particles",
            Self::TooManyEntries => "more than 4,096 pairs or 16 response entries, or one more loaded particle than 16",
            Self::ShortBuffer => "a lent buffer is shorter than the call needs",
            Self::OutOfRange => "a pair of different numbers has one at n or above; or a row or particle asked for is at n or above",
            Self::BadPattern => "a pattern isn't well formed",
            Self::BadPlan => {
                "a plan doesn't fit its pattern; or a table of columns doesn't number unpinned particles 0, 1, 2 up to its count, at most 16, each once"
            }
            Self::LongEnvelope => "the envelope needs more than 16,384 entries",
            Self::BadSettings => "the tolerance isn't finite and at least zero, or more than 4,096 iterations",
            Self::BadText => "program text isn't as described",
        })
    }
}

impl std::error::Error for Refusal {}
