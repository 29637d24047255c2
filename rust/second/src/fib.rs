//! The DAB fast information block (FIB): FIGs, an end marker, padding and a check word.

use crate::crc::crc;
use crate::fig::{self, Fig};
use crate::{require, Refusal};

/// Bytes of a block.
pub const BYTES: usize = 32;
/// Bytes of its FIB data field, after which the check word stands.
const DATA_BYTES: usize = 30;
/// The end marker, which stands in the place of a FIG's header.
const END_MARKER: u8 = 0xFF;

/// What was read of a block.
#[derive(Clone, Copy, Debug, PartialEq, Eq)]
pub struct Reading {
    /// How many words.
    pub count: usize,
    /// The FIG 5/1 that ended the reading, if one was refused.
    pub refused: Option<RefusedFig>,
}

/// A FIG 5/1 that was refused.
#[derive(Clone, Copy, Debug, PartialEq, Eq)]
pub struct RefusedFig {
    /// The byte of the block at which it begins.
    pub begin: usize,
    pub refusal: Refusal,
}

/// Reads the words of all FIGs 5/1 of a block into `words`, and beside each word its FIG's
/// [`Fig::origin`] into `origins`. Refuses, in this order, a length (1), the CRC (4) and a FIG
/// that runs past the data field (1), all before any FIG is read. The reading ends at a FIG 5/1
/// that is refused; 15 is one whose words find no room in either row.
#[inline]
pub fn read(bytes: &[u8], words: &mut [u64], origins: &mut [u8]) -> Result<Reading, Refusal> {
    require(bytes.len() == BYTES, Refusal::Length)?;
    let (data, check) = bytes.split_at(DATA_BYTES);
    require(crc(data).to_be_bytes() == check, Refusal::Crc)?;
    let figs = Figs {
        bytes: before_end(data)?,
        begin: 0,
    };
    let room = words.len().min(origins.len());
    let mut count = 0;
    for (begin, bytes) in figs.filter(|(_, bytes)| fig::is_5_1(bytes)) {
        match Fig::read(bytes, &mut words[count..room]) {
            Ok((fig, more)) => {
                origins[count..count + more].fill(fig.origin());
                count += more;
            }
            Err(refusal) => {
                let refused = Some(RefusedFig { begin, refusal });
                return Ok(Reading { count, refused });
            }
        }
    }
    let refused = None;
    Ok(Reading { count, refused })
}

/// The FIGs of a data field, which end with it or at the end marker; refuses 1 if one runs past.
#[inline]
fn before_end(data: &[u8]) -> Result<&[u8], Refusal> {
    let mut end = 0;
    while end < data.len() && data[end] != END_MARKER {
        end += fig::length(data[end]);
    }
    data.get(..end).ok_or(Refusal::Length)
}

/// Whole FIGs in order, each with the byte at which it begins.
struct Figs<'a> {
    bytes: &'a [u8],
    begin: usize,
}

impl<'a> Iterator for Figs<'a> {
    type Item = (usize, &'a [u8]);

    #[inline]
    fn next(&mut self) -> Option<Self::Item> {
        let begin = self.begin;
        self.begin += fig::length(*self.bytes.get(begin)?);
        Some((begin, &self.bytes[begin..self.begin]))
    }
}

#[cfg(test)]
mod tests {
    use super::*;
    use crate::fig::tests::{BYTES as P, WORDS};

    /// A FIG 5/1 of the system word 0x0466 with D1 1 and TCId 1.
    const SYSTEM: [u8; 4] = [0xA3, 0x89, 0x04, 0x66];
    const SYSTEM_WORD: u64 = 0x0466;

    /// What stands in lent cells before a call.
    const WORD: u64 = 0xAAAA;
    const ORIGIN: u8 = 0xAA;

    /// A block of these bytes, then zeros, and this check word.
    fn block(data: &[&[u8]], check: u16) -> [u8; BYTES] {
        let data = data.concat();
        let mut block = [0; BYTES];
        block[..data.len()].copy_from_slice(&data);
        block[DATA_BYTES..].copy_from_slice(&check.to_be_bytes());
        block
    }

    /// A block, and its words with their origins.
    struct Computed {
        block: [u8; BYTES],
        words: Vec<u64>,
        origins: Vec<u8>,
    }

    /// The computed blocks of which every FIG 5/1 is read.
    fn computed() -> [Computed; 5] {
        let of = |data: &[&[u8]], check, words: &[&[u64]], origins: &[u8]| Computed {
            block: block(data, check),
            words: words.concat(),
            origins: origins.to_vec(),
        };
        let type_0 = [0x05, 0, 0, 0, 0, 0x01];
        let extension_2 = [0xA2, 0x0A, 0];
        let marker = [0xFF];
        [
            of(&[&marker], 0xA8A8, &[], &[]),
            of(&[&P, &marker], 0x2CA6, &[&WORDS], &[1, 1]),
            of(&[&P, &type_0, &P], 0x6591, &[&WORDS, &WORDS], &[1, 1, 1, 1]),
            of(
                &[&P, &extension_2, &SYSTEM, &marker],
                0x9BC4,
                &[&WORDS, &[SYSTEM_WORD]],
                &[1, 1, 9],
            ),
            of(&[&P, &P, &marker], 0xC0A9, &[&WORDS, &WORDS], &[1, 1, 1, 1]),
        ]
    }

    /// Reads a block into rows of so many cells: these words and origins must be there, and
    /// the cells after them as they were.
    #[track_caller]
    fn reads(
        block: &[u8],
        rooms: (usize, usize),
        words: &[u64],
        origins: &[u8],
    ) -> Result<Option<(usize, Refusal)>, Refusal> {
        let mut lent = (vec![WORD; rooms.0], vec![ORIGIN; rooms.1]);
        let mut meant = lent.clone();
        meant.0[..words.len()].copy_from_slice(words);
        meant.1[..origins.len()].copy_from_slice(origins);
        let reading = read(block, &mut lent.0, &mut lent.1);
        assert_eq!(lent, meant);
        reading.map(|Reading { count, refused }| {
            assert_eq!(count, words.len());
            refused.map(|fig| (fig.begin, fig.refusal))
        })
    }

    #[test]
    fn computed_blocks() {
        for Computed {
            block,
            words,
            origins,
        } in computed()
        {
            assert_eq!(reads(&block, (15, 16), &words, &origins), Ok(None));
            let exact = (words.len(), words.len());
            assert_eq!(reads(&block, exact, &words, &origins), Ok(None));
        }
    }

    #[test]
    fn refused_figs_end_the_reading() {
        let d2 = block(&[&SYSTEM, &[0xA3, 0x49, 0x04, 0x66, 0xFF]], 0x121D);
        let reserved = Ok(Some((4, Refusal::Reserved)));
        assert_eq!(reads(&d2, (14, 14), &[SYSTEM_WORD], &[9]), reserved);

        let padding = [0xA6, 0x09, 0x0B, 0x50, 0x65, 0x30, 0x39, 0xFF];
        let padding = block(&[&padding], 0x3274);
        let reserved = Ok(Some((0, Refusal::Reserved)));
        assert_eq!(reads(&padding, (14, 14), &[], &[]), reserved);

        // Type 5 with count 0 is skipped; count 1 is a FIG 5/1 without data.
        let count_1 = block(&[&SYSTEM, &[0xA0, 0xA1, 0x09, 0xFF]], 0x178A);
        let length = Ok(Some((5, Refusal::Length)));
        assert_eq!(reads(&count_1, (14, 14), &[SYSTEM_WORD], &[9]), length);
    }

    #[test]
    fn room_is_that_of_the_shorter_row() {
        let [.., Computed { block, words, .. }] = computed();
        let (first, second) = (
            Ok(Some((0, Refusal::Buffer))),
            Ok(Some((12, Refusal::Buffer))),
        );
        for rooms in [(3, 14), (14, 3), (2, 2)] {
            assert_eq!(reads(&block, rooms, &words[..2], &[1, 1]), second);
        }
        for rooms in [(0, 14), (14, 1)] {
            assert_eq!(reads(&block, rooms, &[], &[]), first);
        }
    }

    #[test]
    fn refused_blocks_write_nothing() {
        // The last FIG runs past the data field; the first one is good.
        let past = block(&[&P, &[0x1F, 0xFF]], 0x9A48);
        assert_eq!(reads(&past, (14, 14), &[], &[]), Err(Refusal::Length));
        let mut wrong = past;
        wrong[BYTES - 1] ^= 1;
        assert_eq!(reads(&wrong, (14, 14), &[], &[]), Err(Refusal::Crc));

        let good = block(&[&P, &[0xFF]], 0x2CA6);
        let short = &good[..BYTES - 1];
        assert_eq!(reads(short, (14, 14), &[], &[]), Err(Refusal::Length));
        let long = [&good[..], &[0]].concat();
        assert_eq!(reads(&long, (14, 14), &[], &[]), Err(Refusal::Length));
    }

    #[test]
    fn bytes_after_the_marker_are_not_looked_at() {
        let rubbish = [&[0xFF], &SYSTEM[..], &[0x1F], &[0x5A; 20]].concat();
        let rubbish = block(&[&SYSTEM, &rubbish], 0xE95C);
        assert_eq!(reads(&rubbish, (14, 14), &[SYSTEM_WORD], &[9]), Ok(None));
    }

    #[test]
    fn the_marker_stands_in_the_place_of_a_header_alone() {
        let bodies = [
            0xE2, 0xFF, 0xFF, // type 7
            0xA3, 0x89, 0xFF, 0xFF, // the system word 0xFFFF
            0x61, 0xFF, // type 3
            0xA3, 0xB9, 0x04, 0x66, // TCId 7
            0xFF,
        ];
        let bodies = block(&[&bodies], 0x258A);
        let words = [0xFFFF, SYSTEM_WORD];
        assert_eq!(reads(&bodies, (14, 14), &words, &[9, 15]), Ok(None));
    }

    #[test]
    fn other_figs_are_skipped() {
        let others = [
            0xA0, // type 5, count 0
            0x00, // type 0, count 0
            0xE1, 0x07, // type 7
            0xA3, 0x0A, 0x04, 0x66, // FIG 5/2
        ];
        let skipped = block(&[&others, &SYSTEM, &[0, 0xFF]], 0x6A24);
        assert_eq!(reads(&skipped, (14, 14), &[SYSTEM_WORD], &[9]), Ok(None));

        // Without a marker the padding is FIGs of type 0 with count 0.
        let padding = block(&[&SYSTEM], 0xD153);
        assert_eq!(reads(&padding, (14, 14), &[SYSTEM_WORD], &[9]), Ok(None));
    }

    #[test]
    fn most_words() {
        let words: Vec<u64> = (0..14).map(|i| i << 8 | (0x10 + i)).collect();
        let data: Vec<u8> = (0..14).flat_map(|i| [i, 0x10 + i]).collect();
        let full = block(&[&[0xBD, 0xB9], &data], 0xCDB8);
        assert_eq!(reads(&full, (14, 14), &words, &[15; 14]), Ok(None));
        let buffer = Ok(Some((0, Refusal::Buffer)));
        assert_eq!(reads(&full, (14, 13), &[], &[]), buffer);
    }
}
