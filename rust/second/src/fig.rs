//! FIG 5/1: 37-bit or 16-bit words in the DAB fast information channel.

use crate::bits::Reader;
use crate::word;
use crate::{require, Refusal};

/// The two header bytes.
pub const HEADER: usize = 2;
/// The most data bytes.
pub const MOST_DATA: usize = 28;
/// The most bytes of a FIG.
pub const MOST_BYTES: usize = HEADER + MOST_DATA;
/// The most words of 16 bits, and so of any FIG.
pub const MOST_SYSTEM_WORDS: usize = 14;

const TYPE: u8 = 5;
const EXTENSION: u8 = 1;

/// The bytes of a FIG of any type by its first byte, which counts those after it in five bits.
#[inline]
pub const fn length(first: u8) -> usize {
    1 + (first & 31) as usize
}

/// Whether a whole FIG of any type is a FIG 5/1.
#[inline]
pub fn is_5_1(fig: &[u8]) -> bool {
    matches!(fig, [first, second, ..] if first >> 5 == TYPE && second & 7 == EXTENSION)
}

/// The header of a FIG 5/1.
#[derive(Clone, Copy, Debug, PartialEq, Eq)]
pub struct Fig {
    /// D1: whether the words have 16 bits.
    pub system: bool,
    pub tcid: u8,
}

impl Fig {
    /// Bits of a word.
    #[inline]
    const fn width(self) -> u32 {
        if self.system {
            16
        } else {
            word::BITS
        }
    }

    /// Both in one number: 8 times D1, and the TCId.
    #[inline]
    pub const fn origin(self) -> u8 {
        (self.system as u8) << 3 | self.tcid
    }

    /// Reads a FIG into `words`: its header and the number of words. Refuses, in this order,
    /// a total length (1), type (2), count (1), extension (2), D2 (3), data length (1),
    /// padding (3) and room (15).
    #[inline]
    pub fn read(bytes: &[u8], words: &mut [u64]) -> Result<(Self, usize), Refusal> {
        require(
            (HEADER..=MOST_BYTES).contains(&bytes.len()),
            Refusal::Length,
        )?;
        require(bytes[0] >> 5 == TYPE, Refusal::Other)?;
        require(length(bytes[0]) == bytes.len(), Refusal::Length)?;
        require(bytes[1] & 7 == EXTENSION, Refusal::Other)?;
        require(bytes[1] & 0x40 == 0, Refusal::Reserved)?;
        let fig = Self {
            system: bytes[1] & 0x80 != 0,
            tcid: bytes[1] >> 3 & 7,
        };
        let data = &bytes[HEADER..];
        let bits = data.len() as u32 * 8;
        let count = bits / fig.width();
        let padding = bits % fig.width();
        require(count > 0 && padding < 8, Refusal::Length)?;
        let spare = (1u8 << padding) - 1;
        require(bytes[bytes.len() - 1] & spare == 0, Refusal::Reserved)?;
        let words = words.get_mut(..count as usize).ok_or(Refusal::Buffer)?;
        let mut reader = Reader::new(data);
        for word in words.iter_mut() {
            *word = reader.take(fig.width());
        }
        Ok((fig, words.len()))
    }
}

#[cfg(test)]
pub(crate) mod tests {
    use super::*;

    pub(crate) const WORDS: [u64; 2] = [0x02_8991_01F4, 0x02_4350_2000];
    pub(crate) const BYTES: [u8; 12] = [
        0xAB, 0x09, 0x14, 0x4C, 0x88, 0x0F, 0xA0, 0x90, 0xD4, 0x08, 0x00, 0x00,
    ];
    const FIG: Fig = Fig {
        system: false,
        tcid: 1,
    };

    #[test]
    fn worked_fig() {
        let mut words = [1; 3];
        assert_eq!(Fig::read(&BYTES, &mut words), Ok((FIG, 2)));
        assert_eq!(words, [WORDS[0], WORDS[1], 1]);
    }

    /// The words of the FIG with its byte `at` set.
    fn with(at: usize, byte: u8) -> Result<(Fig, usize), Refusal> {
        let mut bytes = BYTES;
        bytes[at] = byte;
        Fig::read(&bytes, &mut [0; 2])
    }

    #[test]
    fn refusals() {
        assert_eq!(Fig::read(&BYTES[..1], &mut []), Err(Refusal::Length));
        assert_eq!(Fig::read(&[0; 31], &mut []), Err(Refusal::Length));
        assert_eq!(with(0, 0xCB), Err(Refusal::Other));
        assert_eq!(with(0, 0xAA), Err(Refusal::Length));
        assert_eq!(with(1, 0x0A), Err(Refusal::Other));
        assert_eq!(with(1, 0x49), Err(Refusal::Reserved));
        assert_eq!(with(11, 1), Err(Refusal::Reserved));
        assert_eq!(Fig::read(&BYTES, &mut [0; 1]), Err(Refusal::Buffer));
        assert_eq!(Fig::read(&[0xA1, 1], &mut []), Err(Refusal::Length));
    }

    #[test]
    fn data_lengths() {
        let mut read = [0; MOST_SYSTEM_WORDS];
        for data in 0..=MOST_DATA {
            let mut bytes = [0; MOST_BYTES];
            bytes[0] = TYPE << 5 | (1 + data) as u8;
            bytes[1] = EXTENSION;
            let expected = [5, 10, 14, 19, 24, 28].iter().position(|&d| d == data);
            let answer = Fig::read(&bytes[..HEADER + data], &mut read);
            assert_eq!(answer.ok().map(|(_, n)| n), expected.map(|n| n + 1));
            bytes[1] |= 0x80;
            let answer = Fig::read(&bytes[..HEADER + data], &mut read);
            let even = data > 0 && data % 2 == 0;
            assert_eq!(answer.ok().map(|(_, n)| n), even.then_some(data / 2));
        }
    }
}
