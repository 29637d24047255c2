//! What a table, a catalogue or lives are refused for (10), worked out without either program.

use std::collections::BTreeSet;

use proved::RECORD_BYTES as RECORD;
use sender::CONTENT_BITS;

use crate::classes;
use crate::records;
use crate::stored;
use crate::tally::Call;

/// Why a call refuses what it was lent.
#[derive(Clone, Copy, Debug, PartialEq, Eq, PartialOrd, Ord)]
pub enum Fault {
    /// The size of the table or of the record.
    Size,
    /// A byte of a record out of its range.
    Byte,
    /// A used record without a class.
    EmptySet,
    /// A used record with class 0.
    Class0,
    /// A used record with a class byte that is not 0.
    ClassByte,
    CatalogueSize,
    CatalogueEntry,
    Lives,
    /// A used record whose content does not read as items.
    Content,
    /// A used record whose first event has no class.
    Event,
}

pub type Faults = BTreeSet<Fault>;

/// The largest value of each byte of a used record that may not have all.
const MOST: [(usize, u8); 12] = [
    (0, 1),
    (1, 5),
    (2, 63),
    (3, 63),
    (7, 7),
    (8, 1),
    (9, 7),
    (10, 1),
    (11, 7),
    (31, 15),
    (32, 15),
    (33, 63),
];

impl Fault {
    pub const ALL: [Self; 10] = [
        Self::Size,
        Self::Byte,
        Self::EmptySet,
        Self::Class0,
        Self::ClassByte,
        Self::CatalogueSize,
        Self::CatalogueEntry,
        Self::Lives,
        Self::Content,
        Self::Event,
    ];

    pub fn name(self) -> &'static str {
        match self {
            Self::Size => "a size",
            Self::Byte => "a byte of a record",
            Self::EmptySet => "an empty set",
            Self::Class0 => "class 0 in a set",
            Self::ClassByte => "a class byte",
            Self::CatalogueSize => "the catalogue's size",
            Self::CatalogueEntry => "an entry of the catalogue",
            Self::Lives => "the lives",
            Self::Content => "content that does not read",
            Self::Event => "a first event without a class",
        }
    }

    /// Whether a call refuses it.
    pub fn refused_by(self, call: Call) -> bool {
        let takes_table = [
            Call::TableTake,
            Call::TableExpire,
            Call::TableRenew,
            Call::TableRead,
            Call::RecordRead,
        ];
        match self {
            Self::Size | Self::Byte | Self::EmptySet | Self::Class0 | Self::ClassByte => {
                takes_table.contains(&call)
            }
            Self::CatalogueSize | Self::CatalogueEntry => {
                matches!(call, Call::TableTake | Call::TableRenew)
            }
            Self::Lives => call == Call::TableTake,
            Self::Content | Self::Event => call == Call::TableRenew,
        }
    }
}

/// Those of these faults that were found.
fn found<const N: usize>(faults: [(Fault, bool); N]) -> Faults {
    let found = faults.into_iter().filter(|(_, found)| *found);
    found.map(|(fault, _)| fault).collect()
}

/// Whether content has a bit after those of the record's groups.
fn exceeds_groups(record: &[u8]) -> bool {
    let end = 28 * usize::from(record[1]).saturating_sub(1);
    (end..CONTENT_BITS).any(|bit| record[16 + bit / 8] >> (7 - bit % 8) & 1 == 1)
}

/// Of the bytes of one record.
pub fn of_record(record: &[u8]) -> Faults {
    if record.len() != RECORD {
        return [Fault::Size].into();
    }
    if record[0] == 0 {
        let used = record.iter().any(|&byte| byte != 0);
        return found([(Fault::Byte, used)]);
    }
    let out_of_range = MOST.iter().any(|&(at, most)| record[at] > most)
        || record[1] == 0
        || records::expiry_of(record) == 0
        || exceeds_groups(record);
    let set = classes::stored(record);
    found([
        (Fault::Byte, out_of_range),
        (Fault::EmptySet, set.is_empty()),
        (Fault::Class0, set.contains(&0)),
        (Fault::ClassByte, record[30] != 0),
    ])
}

pub fn of_table(table: &[u8]) -> Faults {
    let (records, rest) = table.as_chunks::<RECORD>();
    let fit = rest.is_empty() && (1..=1024).contains(&records.len());
    let mut faults = found([(Fault::Size, !fit)]);
    for record in records {
        faults.extend(of_record(record));
    }
    faults
}

pub fn of_catalogue(catalogue: &[u16]) -> Faults {
    // Bits after the ninth, and a class exactly if the kind is 1 or 2.
    let malformed = |&entry: &u16| {
        let of_class = matches!(entry >> 6 & 3, 1 | 2);
        entry >> 9 != 0 || (entry & 63 != 0) != of_class
    };
    found([
        (Fault::CatalogueSize, catalogue.len() != 2048),
        (Fault::CatalogueEntry, catalogue.iter().any(malformed)),
    ])
}

pub fn of_lives(lives: &[u16]) -> Faults {
    let fit = lives.len() == 16 && lives.iter().all(|&life| life <= 10_080);
    found([(Fault::Lives, !fit)])
}

/// Of the events of a record, for which a renewal refuses it.
pub fn of_events(record: &[u8], catalogue: &[u16]) -> Faults {
    if record[0] == 0 {
        return Faults::new();
    }
    let class = classes::class(catalogue, records::event_of(record));
    found([
        (Fault::Content, stored::record_items(record).is_none()),
        (Fault::Event, class.is_none()),
    ])
}
