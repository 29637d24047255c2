//! FIGs, field by field.

use crate::Bits;
use proved::Fig;

/// The most words of 37 bits in a FIG.
pub const FIG_WORDS: usize = 6;

/// The most words of a FIG by its D1, and the bits of each.
pub fn fig_words(d1: u8) -> (usize, usize) {
    if d1 == 0 {
        (FIG_WORDS, 37)
    } else {
        (14, 16)
    }
}

/// The bits of a FIG of type 5 before its data.
pub fn fig_start(fig: Fig, d2: u8, extension: u8) -> Bits {
    let mut bits = Bits::default();
    bits.add(fig.d1, 1);
    bits.add(d2, 1);
    bits.add(fig.tcid, 3);
    bits.add(extension, 3);
    bits
}

/// The bytes of a FIG of this type, by those after its first.
pub fn typed_fig(fig_type: u8, rest: &[u8]) -> Vec<u8> {
    let mut fig = Bits::of(&[(fig_type.into(), 3), (rest.len() as u64, 5)]).bytes();
    fig.extend(rest);
    fig
}

/// The bytes of a FIG 5/1.
pub fn fig(fig: Fig, words: &[u64]) -> Vec<u8> {
    let (_, width) = fig_words(fig.d1);
    let mut bits = fig_start(fig, 0, 1);
    for &word in words {
        bits.add(word, width);
    }
    typed_fig(5, &bits.bytes())
}
