//! The update classes of reports and records, worked out without either program.

use std::collections::BTreeSet;
use std::ops::Range;

use proved::{Item, Report};
use sender::ADDITIONAL_EVENT;

use crate::stored::record_items;

/// A set of classes.
pub type Set = BTreeSet<u8>;

/// The bytes of a record that store its set.
pub const STORED: Range<usize> = 34..42;

/// The kind of an event; none if the catalogue ends before it.
pub fn kind(catalogue: &[u16], event: u16) -> Option<u16> {
    let entry = catalogue.get(usize::from(event))?;
    Some(entry >> 6 & 3)
}

/// The class of an event of kind 1 or 2; the others have none.
pub fn class(catalogue: &[u16], event: u16) -> Option<u8> {
    let of_class = matches!(kind(catalogue, event), Some(1 | 2));
    of_class.then(|| catalogue[usize::from(event)] as u8 & 63)
}

/// The additional events among items.
pub fn additional_events(items: &[Item]) -> impl Iterator<Item = u16> + '_ {
    let additional = items.iter().filter(|item| item.label == ADDITIONAL_EVENT);
    additional.map(|item| item.value)
}

/// The set that a record stores: class c is bit c mod 8 of byte c / 8.
pub fn stored(record: &[u8]) -> Set {
    let bytes = &record[STORED];
    let stores = |class: &u8| bytes[usize::from(class / 8)] >> (class % 8) & 1 == 1;
    (0..64).filter(stores).collect()
}

/// The bytes that store a set.
pub fn bytes(set: &Set) -> [u8; 8] {
    let mut bytes = [0; 8];
    for class in set {
        bytes[usize::from(class / 8)] |= 1 << (class % 8);
    }
    bytes
}

/// The class of each event of a report or of a record.
pub struct Classes {
    pub first: Option<u8>,
    additional: Vec<Option<u8>>,
}

impl Classes {
    fn new(catalogue: &[u16], first: u16, items: &[Item]) -> Self {
        let class = |event| class(catalogue, event);
        Self {
            first: class(first),
            additional: additional_events(items).map(class).collect(),
        }
    }

    /// Of a report that fits.
    pub fn of_report(catalogue: &[u16], report: &Report) -> Self {
        let items = &report.items[..report.item_count];
        Self::new(catalogue, report.head.event, items)
    }

    /// Of a used record, if its content reads as items.
    pub fn of_record(catalogue: &[u16], record: &[u8]) -> Option<Self> {
        let items = record_items(record)?;
        let event = u16::from_le_bytes([record[6], record[7]]);
        Some(Self::new(catalogue, event, &items))
    }

    /// The set of them.
    pub fn set(&self) -> Set {
        let additional = self.additional.iter().flatten();
        self.first.iter().chain(additional).copied().collect()
    }

    /// How the events of a report of these classes meet those of a record.
    pub fn meet(&self, record: &Self) -> Meeting {
        let share = |of: &[Option<u8>], with: &[Option<u8>]| {
            let mut classes = of.iter().filter(|class| class.is_some());
            classes.any(|class| with.contains(class))
        };
        let without = |additional: &[Option<u8>]| additional.contains(&None);
        Meeting {
            shared: [
                share(&[self.first], &[record.first]),
                share(&[self.first], &record.additional),
                share(&self.additional, &[record.first]),
                share(&self.additional, &record.additional),
            ],
            without_class: without(&self.additional) && without(&record.additional),
        }
    }
}

/// What the events of a report and of a record have in common.
#[derive(Clone, Copy)]
pub struct Meeting {
    /// Whether a class: of both first events, of the report's first and an additional one of the
    /// record, of an additional one of the report and the record's first, of additional ones.
    pub shared: [bool; 4],
    /// An additional event without a class.
    pub without_class: bool,
}

impl Meeting {
    /// Whether they have a class in common.
    pub fn matches(&self) -> bool {
        self.shared.contains(&true)
    }
}
