//! The 37-bit word: X (5 bits), Y (16), Z (16).

use crate::{require, Refusal};

/// A word has this many bits.
pub const BITS: u32 = 37;
/// Words are below this.
pub const LIMIT: u64 = 1 << BITS;
/// Content bits of a later group.
pub const CONTENT_BITS: u32 = 28;

const TUNING: u64 = 1 << 36;
const SINGLE: u64 = 1 << 35;
const INDEX_AT: u32 = 32;
const Y15: u64 = 1 << 31;
const Y14: u64 = 1 << 30;

/// What a single-group message and a first group share.
#[derive(Clone, Copy, Debug, Default, PartialEq, Eq)]
pub struct Head {
    pub direction: u8,
    pub extent: u8,
    pub event: u16,
    pub location: u16,
}

impl Head {
    #[inline]
    const fn read(word: u64) -> Self {
        Self {
            direction: (word >> 30) as u8 & 1,
            extent: (word >> 27) as u8 & 7,
            event: (word >> 16) as u16 & 0x7FF,
            location: word as u16,
        }
    }

    #[inline]
    const fn write(self) -> u64 {
        (self.direction as u64) << 30
            | (self.extent as u64) << 27
            | (self.event as u64) << 16
            | self.location as u64
    }

    /// Whether every field is in its range.
    pub const fn fits(self) -> bool {
        self.direction <= 1 && self.extent <= 7 && self.event <= 0x7FF
    }
}

/// A word by its kind.
#[derive(Clone, Copy, Debug, PartialEq, Eq)]
pub enum Word {
    /// Tuning information, whole.
    Tuning(u64),
    /// Encryption administration, whole.
    Administration(u64),
    /// Continuity index 7, whole.
    Index7(u64),
    Single {
        duration: u8,
        diversion: u8,
        head: Head,
    },
    First {
        index: u8,
        head: Head,
    },
    Later {
        index: u8,
        second: bool,
        gsi: u8,
        content: u32,
    },
}

impl Word {
    /// Reads a word; refuses 9 one that is not below [`LIMIT`].
    #[inline]
    pub fn read(word: u64) -> Result<Self, Refusal> {
        require(word < LIMIT, Refusal::Unfit)?;
        let index = (word >> INDEX_AT) as u8 & 7;
        Ok(if word & TUNING != 0 {
            Self::Tuning(word)
        } else if word & SINGLE != 0 {
            Self::Single {
                duration: index,
                diversion: u8::from(word & Y15 != 0),
                head: Head::read(word),
            }
        } else if index == 0 {
            Self::Administration(word)
        } else if index == 7 {
            Self::Index7(word)
        } else if word & Y15 != 0 {
            Self::First {
                index,
                head: Head::read(word),
            }
        } else {
            Self::Later {
                index,
                second: word & Y14 != 0,
                gsi: (word >> CONTENT_BITS) as u8 & 3,
                content: word as u32 & ((1 << CONTENT_BITS) - 1),
            }
        })
    }

    /// Writes a word; refuses 9 a field out of its range.
    #[inline]
    pub fn write(self) -> Result<u64, Refusal> {
        let (fit, word) = match self {
            Self::Tuning(word) => (word < LIMIT && word & TUNING != 0, word),
            Self::Administration(word) => (word >> INDEX_AT == 0, word),
            Self::Index7(word) => (word >> INDEX_AT == 7, word),
            Self::Single {
                duration,
                diversion,
                head,
            } => (
                duration <= 7 && diversion <= 1 && head.fits(),
                SINGLE
                    | u64::from(duration) << INDEX_AT
                    | u64::from(diversion) << 31
                    | head.write(),
            ),
            Self::First { index, head } => (
                matches!(index, 1..=6) && head.fits(),
                u64::from(index) << INDEX_AT | Y15 | head.write(),
            ),
            Self::Later {
                index,
                second,
                gsi,
                content,
            } => (
                matches!(index, 1..=6) && gsi <= 3 && content < 1 << CONTENT_BITS,
                u64::from(index) << INDEX_AT
                    | u64::from(second) << 30
                    | u64::from(gsi) << CONTENT_BITS
                    | u64::from(content),
            ),
        };
        require(fit, Refusal::Unfit)?;
        Ok(word)
    }
}

#[cfg(test)]
mod tests {
    use super::*;

    #[test]
    fn worked_words() {
        let single = Word::Single {
            duration: 3,
            diversion: 0,
            head: Head {
                direction: 1,
                extent: 2,
                event: 101,
                location: 12345,
            },
        };
        let first = Word::First {
            index: 2,
            head: Head {
                direction: 0,
                extent: 1,
                event: 401,
                location: 500,
            },
        };
        let later = Word::Later {
            index: 2,
            second: true,
            gsi: 0,
            content: 0x350_2000,
        };
        for (number, word) in [
            (0x0B_5065_3039, single),
            (0x02_8991_01F4, first),
            (0x02_4350_2000, later),
            (0x10_0000_0000, Word::Tuning(0x10_0000_0000)),
            (0x00_FFFF_FFFF, Word::Administration(0x00_FFFF_FFFF)),
            (0x07_0000_0001, Word::Index7(0x07_0000_0001)),
        ] {
            assert_eq!(Word::read(number), Ok(word));
            assert_eq!(word.write(), Ok(number));
        }
    }

    #[test]
    fn refusals() {
        assert_eq!(Word::read(LIMIT), Err(Refusal::Unfit));
        assert_eq!(Word::Tuning(0).write(), Err(Refusal::Unfit));
        assert_eq!(Word::Administration(1 << 32).write(), Err(Refusal::Unfit));
        assert_eq!(Word::Index7(6 << 32).write(), Err(Refusal::Unfit));
    }
}
