//! The DRM data unit.

use crate::assembler::{Answer, Assembler};
use crate::bits::{Reader, Writer};
use crate::crc::crc;
use crate::word::{self, Word};
use crate::{require, Refusal};

/// The fewest bytes of a unit.
pub const FEWEST_BYTES: usize = 8;
/// The most bytes of a unit.
pub const MOST_BYTES: usize = 128;
/// The most system words.
pub const MOST_SYSTEM_WORDS: usize = 3;
/// The most 37-bit words.
pub const MOST_WORDS: usize = (MOST_BITS - SHORT_BITS) / word::BITS as usize;

const CRC_BYTES: usize = 2;
const MOST_BITS: usize = (MOST_BYTES - CRC_BYTES) * 8;
/// Bits before the first word with TMCHI = 0.
const SHORT_BITS: usize = 6;
/// Bits before the first system word with TMCHI = 1, without UA data.
const HEADER_BITS: usize = 32;
const UA_BITS: usize = 16;
/// The application identification of ALERT-C.
const ALERT_C: u64 = 0xCD46;
const LTO_SIGN: u64 = 1 << 5;
const LTO_LIMIT: u8 = 1 << 5;

/// The fields that TMCHI = 1 brings.
#[derive(Clone, Copy, Debug, Default, PartialEq, Eq)]
pub struct Header {
    pub services: u8,
    pub country: u8,
    pub ecc: u8,
    /// Local time offset in half hours, -31 to 31.
    pub lto: i8,
}

/// What a unit has beside its words.
#[derive(Clone, Copy, Debug, PartialEq, Eq)]
pub struct Unit {
    pub short_id: u8,
    /// There exactly if TMCHI = 1.
    pub header: Option<Header>,
}

/// The numbers of words of a unit.
#[derive(Clone, Copy, Debug, PartialEq, Eq)]
pub struct Counts {
    pub system: usize,
    pub words: usize,
}

impl Unit {
    /// Reads a unit into `system` and `words`. Refuses, in this order, a length (1), the
    /// CRC (4), rfu (3), another AID (2), m = 0 (3), a header that does not fit or a remainder
    /// over 7 bits (1), padding (3) and room (15).
    #[inline]
    pub fn read(
        bytes: &[u8],
        system: &mut [u16],
        words: &mut [u64],
    ) -> Result<(Self, Counts), Refusal> {
        require(
            (FEWEST_BYTES..=MOST_BYTES).contains(&bytes.len()),
            Refusal::Length,
        )?;
        let (data, check) = bytes.split_at(bytes.len() - CRC_BYTES);
        require(crc(data).to_be_bytes() == check, Refusal::Crc)?;
        let mut reader = Reader::new(data);
        let headed = reader.take(1) == 1;
        require(reader.take(1) == 0, Refusal::Reserved)?;
        let mut unit = Self {
            short_id: reader.take(4) as u8,
            header: None,
        };
        let mut used = SHORT_BITS;
        let mut m = 0;
        if headed {
            used = HEADER_BITS;
            reader.take(1);
            if reader.take(1) == 1 {
                used += UA_BITS;
                require(reader.take(16) == ALERT_C, Refusal::Other)?;
            }
            unit.header = Some(Header {
                services: reader.take(4) as u8,
                country: reader.take(4) as u8,
                ecc: reader.take(8) as u8,
                lto: read_lto(reader.take(6)),
            });
            m = reader.take(2) as usize;
            require(m > 0, Refusal::Reserved)?;
            used += m * 16;
        }
        let left = (data.len() * 8).checked_sub(used).ok_or(Refusal::Length)?;
        let n = left / word::BITS as usize;
        let padding = left % word::BITS as usize;
        require(padding <= 7, Refusal::Length)?;
        let spare = (1u8 << padding) - 1;
        require(data[data.len() - 1] & spare == 0, Refusal::Reserved)?;
        let system = system.get_mut(..m).ok_or(Refusal::Buffer)?;
        let words = words.get_mut(..n).ok_or(Refusal::Buffer)?;
        for word in system {
            *word = reader.take(16) as u16;
        }
        for word in words {
            *word = reader.take(word::BITS);
        }
        Ok((
            unit,
            Counts {
                system: m,
                words: n,
            },
        ))
    }

    /// Writes a unit and gives its length; refuses 9 what is unfit, 15 too small a buffer.
    #[inline]
    pub fn write(&self, system: &[u16], words: &[u64], out: &mut [u8]) -> Result<usize, Refusal> {
        let (fit, bits) = match self.header {
            None => (system.is_empty() && !words.is_empty(), SHORT_BITS),
            Some(header) => (
                (1..=MOST_SYSTEM_WORDS).contains(&system.len())
                    && header.services <= 15
                    && header.country <= 15
                    && header.lto.unsigned_abs() < LTO_LIMIT,
                HEADER_BITS + 16 * system.len(),
            ),
        };
        require(
            fit && self.short_id <= 15 && words.len() <= MOST_WORDS,
            Refusal::Unfit,
        )?;
        let length = (bits + words.len() * word::BITS as usize).div_ceil(8);
        let fit = length + CRC_BYTES <= MOST_BYTES && are_whole(words);
        require(fit, Refusal::Unfit)?;
        let out = out.get_mut(..length + CRC_BYTES).ok_or(Refusal::Buffer)?;
        let (data, check) = out.split_at_mut(length);
        let mut writer = Writer::new(data);
        match self.header {
            None => writer.put(self.short_id.into(), 6),
            Some(header) => {
                writer.put(0b10 << 6 | u64::from(self.short_id) << 2, 8);
                writer.put(header.services.into(), 4);
                writer.put(header.country.into(), 4);
                writer.put(header.ecc.into(), 8);
                writer.put(write_lto(header.lto), 6);
                writer.put(system.len() as u64, 2);
            }
        }
        for &word in system {
            writer.put(word.into(), 16);
        }
        for &word in words {
            writer.put(word, word::BITS);
        }
        writer.finish();
        check.copy_from_slice(&crc(data).to_be_bytes());
        Ok(length + CRC_BYTES)
    }
}

/// A sign bit and five bits of half hours; minus zero reads as 0.
#[inline]
fn read_lto(field: u64) -> i8 {
    let half_hours = (field & (LTO_SIGN - 1)) as i8;
    if field & LTO_SIGN == 0 {
        half_hours
    } else {
        -half_hours
    }
}

#[inline]
fn write_lto(lto: i8) -> u64 {
    let sign = if lto < 0 { LTO_SIGN } else { 0 };
    sign | u64::from(lto.unsigned_abs())
}

/// Whether a fresh assembler refuses none of the words, drops no open message and ends empty.
#[inline]
fn are_whole(words: &[u64]) -> bool {
    let mut state = Assembler::Empty;
    for &word in words {
        let starts = matches!(
            Word::read(word),
            Ok(Word::Single { .. } | Word::First { .. })
        );
        if starts && state != Assembler::Empty {
            return false;
        }
        let step = state.step(word);
        if let Answer::Refused(_) = step.answer {
            return false;
        }
        state = step.next;
    }
    state == Assembler::Empty
}

#[cfg(test)]
mod tests {
    use super::*;

    const FIRST: u64 = 0x02_8991_01F4;
    const SECOND: u64 = 0x02_4350_2000;
    const SINGLE: u64 = 0x0B_5065_3039;
    const SHORT: Unit = Unit {
        short_id: 5,
        header: None,
    };
    const HEADED: Unit = Unit {
        short_id: 5,
        header: Some(Header {
            services: 1,
            country: 13,
            ecc: 0xE0,
            lto: -2,
        }),
    };

    /// A unit of these bytes with their check word.
    fn checked(data: &[u8]) -> Vec<u8> {
        let mut unit = data.to_vec();
        unit.extend(crc(data).to_be_bytes());
        unit
    }

    fn read(data: &[u8]) -> Result<(Unit, Counts), Refusal> {
        Unit::read(&checked(data), &mut [0; 3], &mut [0; MOST_WORDS])
    }

    #[test]
    fn lengths_without_header() {
        for length in 0..=140 {
            let unit = checked(&vec![0; length]);
            let answer = Unit::read(&unit, &mut [], &mut [0; MOST_WORDS]);
            let words = answer.map(|(_, counts)| counts.words);
            match unit.len() {
                8 => assert_eq!(words, Ok(1)),
                9 => assert_eq!(words, Err(Refusal::Length)),
                128 => assert_eq!(words, Ok(27)),
                0..=7 | 129.. => assert_eq!(words, Err(Refusal::Length)),
                _ => {}
            }
        }
    }

    #[test]
    fn what_is_written_reads_back() {
        let mut out = [0xAA; 129];
        let mut system = [0; 3];
        let mut words = [0; MOST_WORDS];
        for m in 0..=3 {
            let unit = if m == 0 { SHORT } else { HEADED };
            for n in 0..=MOST_WORDS {
                let sent = &[SINGLE, FIRST, SECOND, SINGLE, 1 << 36, 7].repeat(5)[..n];
                let length = unit.write(&[0x0466, 0x4000, 0xFFFF][..m], sent, &mut out);
                let open = sent.last() == Some(&FIRST);
                let bits = if m == 0 { 6 } else { 32 + 16 * m } + 37 * n;
                if open || m + n == 0 || bits > 126 * 8 {
                    assert_eq!(length, Err(Refusal::Unfit));
                    continue;
                }
                let length = length.unwrap();
                assert_eq!(length, bits.div_ceil(8) + 2);
                let counts = Counts {
                    system: m,
                    words: n,
                };
                let answer = Unit::read(&out[..length], &mut system, &mut words);
                assert_eq!(answer, Ok((unit, counts)));
                assert_eq!(&words[..n], sent);
                assert_eq!(system[..m], [0x0466, 0x4000, 0xFFFF][..m]);
            }
        }
        assert_eq!(out[128], 0xAA);
    }

    #[test]
    fn refusals() {
        let mut unit = checked(&[0; 6]);
        unit[7] ^= 1;
        let answer = Unit::read(&unit, &mut [], &mut [0]);
        assert_eq!(answer, Err(Refusal::Crc));
        assert_eq!(read(&[0x40, 0, 0, 0, 0, 0]), Err(Refusal::Reserved));
        assert_eq!(read(&[0x81, 0xCD, 0x47, 0, 0, 0]), Err(Refusal::Other));
        assert_eq!(read(&[0x81, 0xCD, 0x46, 0, 0, 0]), Err(Refusal::Reserved));
        assert_eq!(read(&[0x81, 0xCD, 0x46, 0, 0, 1]), Err(Refusal::Length));
        assert_eq!(read(&[0x80, 0, 0, 1, 0, 0, 0]), Err(Refusal::Length));
        assert_eq!(read(&[0, 0, 0, 0, 0, 1]), Err(Refusal::Reserved));
        let answer = Unit::read(&checked(&[0; 6]), &mut [], &mut []);
        assert_eq!(answer, Err(Refusal::Buffer));
    }

    #[test]
    fn offsets() {
        for (field, lto) in [(0, 0), (32, 0), (31, 31), (63, -31), (1, 1), (33, -1)] {
            let (unit, _) = read(&[0x80, 0, 0, field << 2 | 1, 0, 0]).unwrap();
            assert_eq!(unit.header.unwrap().lto, lto);
        }
        let (unit, _) = read(&[0x82, 0, 0, 1, 0, 0]).unwrap();
        assert_eq!(unit.header, Some(Header::default()));
    }

    #[test]
    fn words_that_a_fresh_assembler_does_not_bear() {
        let unfit = |words: &[u64]| SHORT.write(&[], words, &mut [0; 128]) == Err(Refusal::Unfit);
        assert!(!unfit(&[FIRST, SECOND]));
        assert!(unfit(&[FIRST]));
        assert!(unfit(&[SECOND]));
        assert!(unfit(&[FIRST, FIRST, SECOND]));
        assert!(unfit(&[FIRST, SINGLE]));
        assert!(unfit(&[0x07_0000_0000]));
        assert!(unfit(&[1 << 37]));
    }
}
