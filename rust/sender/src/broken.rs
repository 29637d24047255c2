//! Content that is refused: whole items, and then one that cannot be taken.

use proved::{BrokenAt, Item};

use crate::random::Random;
use crate::{length, parts_of, random_head, random_item, random_location, real_bits, words_of};
use crate::{Bits, REAL_BITS, WIDTHS};

/// The label that no item may have.
const LABEL_15: u16 = 15;

/// The bits of one to four later groups.
const LENGTHS: [usize; 4] = [28, 56, 84, 112];

/// Where content breaks, and at what.
#[derive(Clone, Copy, Debug)]
pub struct Break {
    /// Bits before the items: those of a real location, or none.
    before: usize,
    /// Bits of the content.
    length: usize,
    /// The bit at which the item begins that cannot be taken.
    at: usize,
    /// Its label; none where fewer than four bits are left.
    label: Option<u16>,
}

/// Whether items can take just so many bits: one takes 4, 7, 9, 12, 15 or 20.
fn is_of_items(bits: usize) -> bool {
    !matches!(bits, 1..=3 | 5 | 6 | 10)
}

/// Items that take just so many bits.
fn items_of(random: &mut Random, mut bits: usize) -> Vec<Item> {
    let mut items = Vec::new();
    while bits > 0 {
        let item = random_item(random);
        let rest = bits.checked_sub(length(&[item]));
        if let Some(rest) = rest.filter(|&rest| is_of_items(rest)) {
            items.push(item);
            bits = rest;
        }
    }
    items
}

/// The bits at which an item can begin, of content with so many bits before its items.
fn places(before: usize, length: usize) -> Vec<usize> {
    let places = before..length;
    places.filter(|at| is_of_items(at - before)).collect()
}

/// The labels of items that cannot be taken where so many bits are left.
fn labels(left: usize) -> Vec<Option<u16>> {
    let refused = |&label: &u16| match WIDTHS.get(usize::from(label)) {
        // Four zero bits are no item.
        Some(&width) => left < 4 + width as usize && (label, left) != (0, 4),
        None => true,
    };
    match left {
        0..4 => vec![None],
        _ => (0..=LABEL_15).filter(refused).map(Some).collect(),
    }
}

/// A number of so many bits that is not 0.
fn not_zero(random: &mut Random, width: usize) -> u64 {
    1 + random.below((1 << width) - 1)
}

impl Break {
    /// Every break of content with so many bits before its items.
    pub fn all(before: usize) -> Vec<Self> {
        let mut breaks = Vec::new();
        for length in LENGTHS {
            for at in places(before, length) {
                breaks.extend(labels(length - at).into_iter().map(|label| Self {
                    before,
                    length,
                    at,
                    label,
                }));
            }
        }
        breaks
    }

    /// One of them, often label 15.
    pub fn random(random: &mut Random, before: usize) -> Self {
        let length = random.pick(&LENGTHS);
        let at = random.pick(&places(before, length));
        let labels = labels(length - at);
        let any = random.pick(&labels);
        let label = random.pick(&[any, labels[labels.len() - 1]]);
        Self {
            before,
            length,
            at,
            label,
        }
    }

    /// A break of a message, at home or INTER-ROAD.
    pub fn of_message(random: &mut Random) -> Self {
        let before = random.pick(&[0, REAL_BITS]);
        Self::random(random, before)
    }

    pub fn refusal(&self) -> u8 {
        match self.label {
            Some(LABEL_15) => 8,
            _ => 7,
        }
    }

    pub fn broken_at(&self) -> BrokenAt {
        BrokenAt(self.at as u8)
    }

    /// The parts of such content: items up to the break, what cannot be taken, and any bits after
    /// its label.
    pub fn parts(&self, random: &mut Random) -> Vec<u32> {
        let mut bits = Bits::default();
        bits.add(random_location(random), self.before);
        bits.add_items(&items_of(random, self.at - self.before));
        let left = self.length - self.at;
        match self.label {
            None => bits.add(not_zero(random, left), left),
            // With a value of 0 too, nothing but zero bits would be left.
            Some(0) => bits.add(not_zero(random, left - 4), left),
            Some(label) => bits.add(label, 4),
        }
        while bits.0.len() < self.length {
            let width = (self.length - bits.0.len()).min(28);
            bits.add(random.bits(width as u32), width);
        }
        parts_of(bits)
    }

    /// The words of a message of such content, INTER-ROAD if a real location is in it.
    pub fn words(&self, random: &mut Random) -> Vec<u64> {
        let head = loop {
            let head = random_head(random);
            if real_bits(head) == self.before {
                break head;
            }
        };
        words_of(head, random.ci(), &self.parts(random))
    }
}
