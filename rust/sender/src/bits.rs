//! Strings of bits.

use crate::width;
use proved::Item;

/// A string of bits.
#[derive(Clone, Debug, Default)]
pub struct Bits(pub Vec<bool>);

impl Bits {
    /// Fields as value and width.
    pub fn of(fields: &[(u64, usize)]) -> Self {
        let mut bits = Self::default();
        for &(value, width) in fields {
            bits.add(value, width);
        }
        bits
    }

    pub fn add(&mut self, value: impl Into<u64>, width: usize) {
        let value = value.into();
        self.0.extend((0..width).rev().map(|i| value >> i & 1 == 1));
    }

    pub fn add_items(&mut self, items: &[Item]) {
        for &item in items {
            self.add(item.label, 4);
            self.add(item.value, width(item));
        }
    }

    pub fn pad(&mut self, length: usize) {
        self.0.resize(self.0.len().max(length), false);
    }

    /// Numbers of `width` bits, the last one filled with zero bits.
    pub(crate) fn numbers(&self, width: usize) -> Vec<u64> {
        let number = |bits: &[bool]| {
            let filled = bits.iter().copied().chain([false].repeat(width));
            filled.take(width).fold(0, |n, bit| 2 * n + u64::from(bit))
        };
        self.0.chunks(width).map(number).collect()
    }

    pub fn bytes(&self) -> Vec<u8> {
        self.numbers(8).iter().map(|&byte| byte as u8).collect()
    }

    pub(crate) fn number(&self) -> u64 {
        self.numbers(self.0.len())[0]
    }
}
