//! The check word: polynomial x^16 + x^12 + x^5 + 1, start all ones, result inverted.

const POLYNOMIAL: u16 = 0x1021;

/// What a byte does to the register: row 0 for the last byte of a run, row k for one with k bytes after it.
const TABLES: [[u16; 256]; 8] = {
    let mut tables = [[0u16; 256]; 8];
    let mut byte = 0;
    while byte < 256 {
        let mut crc = (byte as u16) << 8;
        let mut bit = 0;
        while bit < 8 {
            let carry = crc & 0x8000 != 0;
            crc <<= 1;
            if carry {
                crc ^= POLYNOMIAL;
            }
            bit += 1;
        }
        tables[0][byte] = crc;
        byte += 1;
    }
    let mut row = 1;
    while row < 8 {
        let mut byte = 0;
        while byte < 256 {
            let crc = tables[row - 1][byte];
            tables[row][byte] = (crc << 8) ^ tables[0][(crc >> 8) as usize];
            byte += 1;
        }
        row += 1;
    }
    tables
};

/// The check word of `bytes`, eight bytes at a time while there are eight.
#[inline]
pub fn crc(bytes: &[u8]) -> u16 {
    let eights = bytes.chunks_exact(8);
    let rest = eights.remainder();
    let crc = eights.fold(0xFFFF, |crc: u16, b| {
        let [high, low] = crc.to_be_bytes();
        TABLES[7][usize::from(b[0] ^ high)]
            ^ TABLES[6][usize::from(b[1] ^ low)]
            ^ TABLES[5][usize::from(b[2])]
            ^ TABLES[4][usize::from(b[3])]
            ^ TABLES[3][usize::from(b[4])]
            ^ TABLES[2][usize::from(b[5])]
            ^ TABLES[1][usize::from(b[6])]
            ^ TABLES[0][usize::from(b[7])]
    });
    !rest.iter().fold(crc, |crc, byte| {
        (crc << 8) ^ TABLES[0][usize::from((crc >> 8) as u8 ^ byte)]
    })
}

#[cfg(test)]
mod tests {
    use super::*;

    #[test]
    fn published_check_value() {
        assert_eq!(crc(b"123456789"), 0xD64E);
    }

    /// The register shifted a bit at a time.
    fn by_bits(bytes: &[u8]) -> u16 {
        let mut register = 0xFFFFu16;
        for byte in bytes {
            for bit in (0..8).rev() {
                let feedback = (register >> 15) ^ u16::from(byte >> bit & 1);
                register = (register << 1) ^ if feedback == 1 { POLYNOMIAL } else { 0 };
            }
        }
        !register
    }

    #[test]
    fn every_length_to_forty() {
        let bytes: Vec<u8> = (0..40u32)
            .map(|i| (i * i * 37 + 11 * i + 5) as u8)
            .collect();
        for length in 0..=bytes.len() {
            assert_eq!(
                crc(&bytes[..length]),
                by_bits(&bytes[..length]),
                "{length} bytes"
            );
        }
    }

    #[test]
    fn computed_cases() {
        assert_eq!(crc(b""), 0x0000);
        assert_eq!(crc(b"1"), 0x387D);
        assert_eq!(crc(&[0x00]), 0x1E0F);
        assert_eq!(crc(&[0xFF, 0xFF]), 0xFFFF);
    }
}
