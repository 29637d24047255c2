//! System words: 16 bits, the top two the variant. Reserved bits are read over and written 0.

use crate::{require, Refusal};

/// A system word by its variant.
#[derive(Clone, Copy, Debug, PartialEq, Eq)]
pub enum SystemWord {
    /// Variant 0.
    Table {
        ltn: u8,
        afi: u8,
        mode: u8,
        /// Scopes I, N, R, U.
        scopes: [u8; 4],
    },
    /// Variant 1.
    Service {
        gap: u8,
        sid: u8,
        ta: u8,
        tw: u8,
        td: u8,
    },
}

impl SystemWord {
    /// Reads a system word; refuses 2 another variant.
    #[inline]
    pub fn read(word: u16) -> Result<Self, Refusal> {
        let field = |at: u32, width: u32| (word >> at) as u8 & ((1 << width) - 1);
        match field(14, 2) {
            0 => Ok(Self::Table {
                ltn: field(6, 6),
                afi: field(5, 1),
                mode: field(4, 1),
                scopes: [field(3, 1), field(2, 1), field(1, 1), field(0, 1)],
            }),
            1 => Ok(Self::Service {
                gap: field(12, 2),
                sid: field(6, 6),
                ta: field(4, 2),
                tw: field(2, 2),
                td: field(0, 2),
            }),
            _ => Err(Refusal::Other),
        }
    }

    /// Writes a system word; refuses 9 a field out of its range.
    #[inline]
    pub fn write(self) -> Result<u16, Refusal> {
        match self {
            Self::Table {
                ltn,
                afi,
                mode,
                scopes,
            } => {
                let flags = [afi, mode, scopes[0], scopes[1], scopes[2], scopes[3]];
                let fit = ltn <= 63 && flags.iter().all(|&flag| flag <= 1);
                require(fit, Refusal::Unfit)?;
                let flags = flags
                    .iter()
                    .fold(0, |word, &flag| word << 1 | u16::from(flag));
                Ok(u16::from(ltn) << 6 | flags)
            }
            Self::Service {
                gap,
                sid,
                ta,
                tw,
                td,
            } => {
                let fit = sid <= 63 && [gap, ta, tw, td].iter().all(|&field| field <= 3);
                require(fit, Refusal::Unfit)?;
                Ok(1 << 14
                    | u16::from(gap) << 12
                    | u16::from(sid) << 6
                    | u16::from(ta) << 4
                    | u16::from(tw) << 2
                    | u16::from(td))
            }
        }
    }
}

#[cfg(test)]
mod tests {
    use super::*;

    #[test]
    fn worked_word() {
        let word = SystemWord::Table {
            ltn: 17,
            afi: 1,
            mode: 0,
            scopes: [0, 1, 1, 0],
        };
        assert_eq!(SystemWord::read(0x0466), Ok(word));
        assert_eq!(SystemWord::read(0x3466), Ok(word));
        assert_eq!(word.write(), Ok(0x0466));
    }

    #[test]
    fn other_variants() {
        assert_eq!(SystemWord::read(0x8000), Err(Refusal::Other));
        assert_eq!(SystemWord::read(0xFFFF), Err(Refusal::Other));
    }

    #[test]
    fn what_is_written_reads_back() {
        for number in 0..0x8000u16 {
            let word = SystemWord::read(number).unwrap();
            let back = word.write().unwrap();
            assert_eq!(SystemWord::read(back), Ok(word));
            let reserved = if number >> 14 == 0 { 0x3000 } else { 0 };
            assert_eq!(back, number & !reserved);
        }
    }
}
