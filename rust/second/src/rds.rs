//! The RDS group 8A and the repeat rule.

use crate::word::LIMIT;
use crate::{require, Refusal};

/// Bytes of a group.
pub const SIZE: usize = 8;

/// Group type 8, version 0, in the top five bits of block 2.
const TYPE_8A: u16 = 8 << 1;

/// A group 8A.
#[derive(Clone, Copy, Debug, PartialEq, Eq)]
pub struct Group {
    pub pi: u16,
    pub tp: u8,
    pub pty: u8,
    pub word: u64,
}

impl Group {
    /// Reads a group; refuses 1 another length, 2 another type.
    #[inline]
    pub fn read(bytes: &[u8]) -> Result<Self, Refusal> {
        let bytes: [u8; SIZE] = bytes.try_into().map_err(|_| Refusal::Length)?;
        let blocks = u64::from_be_bytes(bytes);
        let second = (blocks >> 32) as u16;
        require(second >> 11 == TYPE_8A, Refusal::Other)?;
        Ok(Self {
            pi: (blocks >> 48) as u16,
            tp: (second >> 10) as u8 & 1,
            pty: (second >> 5) as u8 & 31,
            word: blocks & (LIMIT - 1),
        })
    }

    /// Writes a group; refuses 9 a field or word out of its range, 15 too small a buffer.
    #[inline]
    pub fn write(&self, out: &mut [u8]) -> Result<(), Refusal> {
        let fit = self.tp <= 1 && self.pty <= 31 && self.word < LIMIT;
        require(fit, Refusal::Unfit)?;
        let out = out.first_chunk_mut::<SIZE>().ok_or(Refusal::Buffer)?;
        let second = TYPE_8A << 11 | u16::from(self.tp) << 10 | u16::from(self.pty) << 5;
        *out = (u64::from(self.pi) << 48 | u64::from(second) << 32 | self.word).to_be_bytes();
        Ok(())
    }
}

/// The run of equal words among the groups 8A so far.
#[derive(Clone, Copy, Debug, Default, PartialEq, Eq)]
pub enum Run {
    /// No group yet.
    #[default]
    None,
    /// A run of one.
    One(u64),
    /// A run that has counted.
    Counted(u64),
}

impl Run {
    /// Goes on with the word of the next group: the run, and whether the word is valid now.
    #[inline]
    pub fn next(self, word: u64) -> (Self, bool) {
        match self {
            Self::One(last) if last == word => (Self::Counted(word), true),
            Self::Counted(last) if last == word => (self, false),
            _ => (Self::One(word), false),
        }
    }
}

#[cfg(test)]
mod tests {
    use super::*;

    const BYTES: [u8; 8] = [0x52, 0x01, 0x80, 0x0B, 0x50, 0x65, 0x30, 0x39];

    #[test]
    fn worked_group() {
        let group = Group {
            pi: 0x5201,
            tp: 0,
            pty: 0,
            word: 0x0B_5065_3039,
        };
        assert_eq!(Group::read(&BYTES), Ok(group));
        let mut out = [0xAA; 10];
        assert_eq!(group.write(&mut out), Ok(()));
        assert_eq!(out[..8], BYTES);
        assert_eq!(out[8..], [0xAA; 2]);
    }

    #[test]
    fn refusals() {
        assert_eq!(Group::read(&BYTES[..7]), Err(Refusal::Length));
        assert_eq!(Group::read(&[0; 9]), Err(Refusal::Length));
        assert_eq!(Group::read(&[0; 8]), Err(Refusal::Other));
        let version_b = [0x52, 0x01, 0x88, 0x0B, 0x50, 0x65, 0x30, 0x39];
        assert_eq!(Group::read(&version_b), Err(Refusal::Other));
        let group = Group::read(&BYTES).unwrap();
        assert_eq!(group.write(&mut [0; 7]), Err(Refusal::Buffer));
        let wide = Group { pty: 32, ..group };
        assert_eq!(wide.write(&mut [0; 7]), Err(Refusal::Unfit));
    }

    #[test]
    fn a_run_counts_once_at_its_second_member() {
        let mut run = Run::None;
        let valid = [5, 5, 5, 5, 6, 5, 5, 7, 7].map(|word| {
            let (next, valid) = run.next(word);
            run = next;
            valid
        });
        let expected = [false, true, false, false, false, false, true, false, true];
        assert_eq!(valid, expected);
    }
}
