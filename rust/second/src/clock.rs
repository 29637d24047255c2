//! The two clocks: minutes of UTC and minutes of service local time.

use crate::{require, Refusal};

/// The largest minute of UTC.
pub const LARGEST: u32 = 4_000_000_000;
/// The largest local time offset, either way, in half hours.
pub const LARGEST_LTO: u8 = 31;
/// The longest life, in minutes.
pub const LONGEST_LIFE: u16 = 10_080;

const HALF_HOUR: i64 = 30;
const DAY: i64 = 1440;

/// A minute of UTC, counted from a midnight.
#[derive(Clone, Copy, Debug, Default, PartialEq, Eq, PartialOrd, Ord)]
pub struct Utc(pub u32);

/// A minute of service local time.
#[derive(Clone, Copy, Debug, PartialEq, Eq)]
struct Local(i64);

impl Utc {
    /// The local minute at an offset in half hours.
    #[inline]
    fn local(self, lto: i8) -> Local {
        Local(i64::from(self.0) + HALF_HOUR * i64::from(lto))
    }

    /// The minute at which a record of this life expires; life 0 is until the next midnight
    /// of the service. Refuses, in this order, a life that is too long (10), an offset out of
    /// its range (9) and a minute that is too large (13).
    #[inline]
    pub fn expiry(self, lto: i8, life: u16) -> Result<Self, Refusal> {
        require(life <= LONGEST_LIFE, Refusal::Malformed)?;
        require(lto.unsigned_abs() <= LARGEST_LTO, Refusal::Unfit)?;
        require(self.0 <= LARGEST, Refusal::Minute)?;
        let life = match life {
            0 => self.local(lto).to_midnight(),
            _ => life.into(),
        };
        Ok(Self(self.0 + life))
    }
}

impl Local {
    /// Minutes to the next midnight, 1 to 1,440.
    #[inline]
    fn to_midnight(self) -> u32 {
        (DAY - self.0.rem_euclid(DAY)) as u32
    }
}

#[cfg(test)]
mod tests {
    use super::*;

    #[test]
    fn until_midnight() {
        assert_eq!(Utc(0).expiry(0, 0), Ok(Utc(1440)));
        assert_eq!(Utc(0).expiry(2, 0), Ok(Utc(1380)));
        assert_eq!(Utc(0).expiry(-1, 0), Ok(Utc(30)));
        assert_eq!(Utc(1439).expiry(0, 0), Ok(Utc(1440)));
        assert_eq!(Utc(1440).expiry(0, 0), Ok(Utc(2880)));
    }

    #[test]
    fn a_life() {
        assert_eq!(Utc(7).expiry(-31, 15), Ok(Utc(22)));
        let end = Utc(LARGEST).expiry(31, 10_080);
        assert_eq!(end, Ok(Utc(4_000_010_080)));
    }

    #[test]
    fn refusals_in_order() {
        let late = Utc(LARGEST + 1);
        assert_eq!(late.expiry(32, 10_081), Err(Refusal::Malformed));
        assert_eq!(late.expiry(-32, 0), Err(Refusal::Unfit));
        assert_eq!(late.expiry(-31, 0), Err(Refusal::Minute));
    }
}
