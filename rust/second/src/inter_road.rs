//! INTER-ROAD (clause 6.7.2): messages of locations in another table than the service's.

/// Location codes from here on are FLT codes: six ones, country (4 bits), table number (6 bits).
pub const FLT_CODES: u16 = 0xFC00;
/// Bits of the real location, which stand before the items.
pub const REAL_BITS: u32 = 16;

const NUMBER_BITS: u32 = 6;

/// A location in all its parts.
#[derive(Clone, Copy, Debug, PartialEq, Eq)]
pub struct Location {
    pub country: u8,
    /// The number of its location table.
    pub ltn: u8,
    pub code: u16,
}

/// Whether a location code names a foreign location table.
#[inline]
pub const fn is_flt(code: u16) -> bool {
    code >= FLT_CODES
}

/// The code of a foreign location table, of a country to 15 and a number to 63.
#[inline]
pub const fn flt_code(country: u8, ltn: u8) -> u16 {
    FLT_CODES | (country as u16) << NUMBER_BITS | ltn as u16
}

impl Location {
    /// The location of this code in the table that an FLT code names.
    #[inline]
    pub const fn foreign(flt: u16, code: u16) -> Self {
        Self {
            country: (flt >> NUMBER_BITS) as u8 & 15,
            ltn: flt as u8 & ((1 << NUMBER_BITS) - 1),
            code,
        }
    }
}

#[cfg(test)]
mod tests {
    use super::*;

    #[test]
    fn codes() {
        for (country, ltn, code) in [
            (13, 1, 0xFF41),
            (1, 9, 0xFC49),
            (15, 61, 0xFFFD),
            (0, 0, 0xFC00),
            (15, 63, 0xFFFF),
        ] {
            assert_eq!(flt_code(country, ltn), code);
            let location = Location {
                country,
                ltn,
                code: 500,
            };
            assert_eq!(Location::foreign(code, 500), location);
            assert!(is_flt(code));
        }
        assert!(!is_flt(0xFBFF));
    }
}
