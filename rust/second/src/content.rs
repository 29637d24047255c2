//! Multi-group content: items of a 4-bit label and a value, in INTER-ROAD messages after the real
//! location.

use crate::inter_road::REAL_BITS;
use crate::word::CONTENT_BITS;
use crate::{require, Refusal};

/// The most later groups, and so the most parts of a content.
pub const MOST_PARTS: usize = 4;
/// The most bits of a content.
pub const MOST_BITS: u32 = MOST_PARTS as u32 * CONTENT_BITS;
/// Bits of a label.
pub const LABEL_BITS: u32 = 4;
/// The most items.
pub const MOST_ITEMS: usize = (MOST_BITS / LABEL_BITS) as usize;

/// Bits of the value after labels 0 to 14.
pub const WIDTHS: [u8; 15] = [3, 3, 5, 5, 5, 8, 8, 8, 8, 11, 16, 16, 16, 16, 0];

/// One item.
#[derive(Clone, Copy, Debug, Default, PartialEq, Eq)]
pub struct Item {
    pub label: u8,
    pub value: u16,
}

impl Item {
    /// Bits of the value; none for label 15.
    #[inline]
    fn width(self) -> Option<u32> {
        WIDTHS.get(usize::from(self.label)).copied().map(u32::from)
    }
}

/// A list of items; the places from `count` on are zero.
#[derive(Clone, Copy, Debug, PartialEq, Eq)]
pub struct Items {
    pub count: u8,
    pub places: [Item; MOST_ITEMS],
}

impl Items {
    /// No items.
    pub const NONE: Self = Self {
        count: 0,
        places: [Item { label: 0, value: 0 }; MOST_ITEMS],
    };

    /// The items.
    #[inline]
    pub fn as_slice(&self) -> &[Item] {
        &self.places[..usize::from(self.count)]
    }
}

/// Content bits: `parts` times 28 bits from the top of `bits`, zero below.
#[derive(Clone, Copy, Debug, PartialEq, Eq)]
pub struct Content {
    pub parts: u8,
    pub bits: u128,
}

impl Content {
    /// The content of later groups; refuses 1 none or more than four, 9 a part too large.
    #[inline]
    pub fn join(parts: &[u32]) -> Result<Self, Refusal> {
        require((1..=MOST_PARTS).contains(&parts.len()), Refusal::Length)?;
        let fit = parts.iter().all(|&part| part < 1 << CONTENT_BITS);
        require(fit, Refusal::Unfit)?;
        let mut content = Self { parts: 0, bits: 0 };
        for &part in parts {
            content.push(part);
        }
        Ok(content)
    }

    /// Adds the content of one more later group.
    #[inline]
    fn push(&mut self, part: u32) {
        self.bits |= u128::from(part) << (128 - CONTENT_BITS * (u32::from(self.parts) + 1));
        self.parts += 1;
    }

    /// The content of later group `i`, from 0.
    #[inline]
    pub const fn part(self, i: u8) -> u32 {
        (self.bits << (CONTENT_BITS * i as u32) >> (128 - CONTENT_BITS)) as u32
    }

    /// Reads the items; refuses 7 what does not fit, 8 label 15, each with its place.
    #[inline]
    pub fn read(self) -> Result<Items, Refusal> {
        self.read_from(0)
    }

    /// Hands on the items one by one; refuses as [`Content::read`], after those that read.
    #[inline]
    pub fn each_item(self, each: impl FnMut(Item)) -> Result<(), Refusal> {
        self.each_from(0, each)
    }

    /// Reads the real location and the items after it; refuses as [`Content::read`].
    #[inline]
    pub fn read_foreign(self) -> Result<(u16, Items), Refusal> {
        let real = (self.bits >> (128 - REAL_BITS)) as u16;
        Ok((real, self.read_from(REAL_BITS)?))
    }

    /// Reads the items from bit `at` on.
    #[inline]
    fn read_from(self, at: u32) -> Result<Items, Refusal> {
        let mut items = Items::NONE;
        self.each_from(at, |item| {
            items.places[usize::from(items.count)] = item;
            items.count += 1;
        })?;
        Ok(items)
    }

    /// Hands on the items from bit `at` on, one by one.
    #[inline]
    fn each_from(self, mut at: u32, mut each: impl FnMut(Item)) -> Result<(), Refusal> {
        let mut bits = self.bits << at;
        while bits != 0 {
            let left = self.length() - at;
            let here = at as u8;
            require(left >= LABEL_BITS, Refusal::Content { at: here })?;
            let mut item = Item {
                label: (bits >> (128 - LABEL_BITS)) as u8,
                value: 0,
            };
            let width = item.width().ok_or(Refusal::Label15 { at: here })?;
            require(left >= LABEL_BITS + width, Refusal::Content { at: here })?;
            // The label and up to 16 bits of value are the top of 32 bits.
            let top = (bits >> 96) as u32 & ((1 << (32 - LABEL_BITS)) - 1);
            item.value = (top >> (32 - LABEL_BITS - width)) as u16;
            each(item);
            bits <<= LABEL_BITS + width;
            at += LABEL_BITS + width;
        }
        Ok(())
    }

    /// The number of its bits.
    #[inline]
    fn length(self) -> u32 {
        u32::from(self.parts) * CONTENT_BITS
    }

    /// Writes items in the fewest parts, at least one. Refuses 9 label 15, a value out of its
    /// range, over 112 bits, a last item (0, 0), more places than there are and unused places
    /// that are not zero.
    #[inline]
    pub fn write(items: &Items) -> Result<Self, Refusal> {
        let (bits, length) = write_items(items)?;
        Self::fewest(bits, length)
    }

    /// Writes a real location and items after it; refuses as [`Content::write`], the real
    /// location's bits counted too.
    #[inline]
    pub fn write_foreign(real: u16, items: &Items) -> Result<Self, Refusal> {
        let (bits, length) = write_items(items)?;
        let real = u128::from(real) << (128 - REAL_BITS);
        Self::fewest(real | bits >> REAL_BITS, REAL_BITS + length)
    }

    /// The fewest parts, at least one, that have so many bits; refuses 9 over 112.
    #[inline]
    fn fewest(bits: u128, length: u32) -> Result<Self, Refusal> {
        require(length <= MOST_BITS, Refusal::Unfit)?;
        Ok(Self {
            parts: length.div_ceil(CONTENT_BITS).max(1) as u8,
            bits,
        })
    }
}

/// The items from the top, zero below, and their number of bits, at most 112; else refuses 9.
#[inline]
fn write_items(items: &Items) -> Result<(u128, u32), Refusal> {
    let count = usize::from(items.count);
    require(count <= MOST_ITEMS, Refusal::Unfit)?;
    let (used, unused) = items.places.split_at(count);
    let blank = Item::default();
    let fit = used.last() != Some(&blank) && unused.iter().all(|place| *place == blank);
    require(fit, Refusal::Unfit)?;
    let mut bits = 0u128;
    let mut length = 0;
    for item in used {
        let width = item.width().ok_or(Refusal::Unfit)?;
        let fit = u32::from(item.value) < 1 << width && length + LABEL_BITS + width <= MOST_BITS;
        require(fit, Refusal::Unfit)?;
        length += LABEL_BITS + width;
        let code = u128::from(item.label) << width | u128::from(item.value);
        bits |= code << (128 - length);
    }
    Ok((bits, length))
}

#[cfg(test)]
mod tests {
    use super::*;

    fn read(parts: &[u32]) -> Result<Vec<(u8, u16)>, Refusal> {
        let items = Content::join(parts)?.read()?;
        Ok(items
            .as_slice()
            .iter()
            .map(|item| (item.label, item.value))
            .collect())
    }

    #[test]
    fn worked_contents() {
        assert_eq!(read(&[0x350_2000]), Ok(vec![(3, 10), (0, 2)]));
        assert_eq!(read(&[0]), Ok(vec![]));
        assert_eq!(read(&[0; 4]), Ok(vec![]));
        assert_eq!(read(&[0xFFF_FFFF]), Err(Refusal::Label15 { at: 0 }));
    }

    #[test]
    fn lengths() {
        assert_eq!(read(&[]), Err(Refusal::Length));
        assert_eq!(read(&[0; 5]), Err(Refusal::Length));
    }

    #[test]
    #[allow(clippy::unusual_byte_groupings)] // grouped as labels and values
    fn what_does_not_fit() {
        // Six separators and then label 10 with no room for its value.
        assert_eq!(read(&[0xEEE_EEEA]), Err(Refusal::Content { at: 24 }));
        // 25 bits of items, then three bits that are not all zero.
        let items = 0b0010_00000_0011_00000_0001_000_000;
        assert_eq!(read(&[items]), Ok(vec![(2, 0), (3, 0), (1, 0)]));
        assert_eq!(read(&[items | 1]), Err(Refusal::Content { at: 25 }));
    }

    #[test]
    fn most_items() {
        assert_eq!(read(&[0xEEE_EEEE; 4]), Ok(vec![(14, 0); MOST_ITEMS]));
    }

    #[test]
    fn items_after_a_real_location() {
        let read = |parts: &[u32]| Content::join(parts)?.read_foreign();
        let items = |pairs: &[(u8, u16)]| {
            let mut items = Items::NONE;
            items.count = pairs.len() as u8;
            for (place, &(label, value)) in items.places.iter_mut().zip(pairs) {
                *place = Item { label, value };
            }
            items
        };
        for (parts, real, pairs) in [
            (vec![0x01F_4000], 500, vec![]),
            (vec![0x01F_4040], 500, vec![(0, 2)]),
            (vec![0x01F_4350, 0x200_0000], 500, vec![(3, 10), (0, 2)]),
            (vec![0xFC0_0000], 0xFC00, vec![]),
            (vec![0x350_2000], 0x3502, vec![]),
            (vec![0], 0, vec![]),
            (vec![0x01C], 0, vec![(0, 0), (14, 0)]),
        ] {
            let items = items(&pairs);
            let content = Content::join(&parts).unwrap();
            assert_eq!(read(&parts), Ok((real, items)));
            assert_eq!(Content::write_foreign(real, &items), Ok(content));
        }
        let separators = |count| items(&[(14, 0)].repeat(count));
        let full = [0x01F_4EEE, 0xEEE_EEEE, 0xEEE_EEEE, 0xEEE_EEEE];
        assert_eq!(read(&full), Ok((500, separators(24))));
        let over = Content::write_foreign(500, &separators(25));
        assert_eq!(over, Err(Refusal::Unfit));
        assert!(Content::write(&separators(25)).is_ok());
        // Label 10 with 8 bits left, then label 15.
        assert_eq!(read(&[0x01F_4AFF]), Err(Refusal::Content { at: 16 }));
        assert_eq!(read(&[0x01F_4FFF]), Err(Refusal::Label15 { at: 16 }));
        assert_eq!(read(&[]), Err(Refusal::Length));
        assert_eq!(read(&[0; 5]), Err(Refusal::Length));
    }

    #[test]
    fn a_zero_item_in_the_middle_is_an_item() {
        assert_eq!(read(&[0x01_C000]), Ok(vec![(0, 0), (0, 7)]));
    }
}
