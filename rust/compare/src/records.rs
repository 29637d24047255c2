//! The bytes of records, and tables of random ones.

use std::ops::Range;

use proved::RECORD_BYTES as RECORD;
use proved::{Report, Service};
use sender::random::Random;
use sender::{Break, Message};

use crate::classes::{self, Classes, STORED};
use crate::lists::{Lists, CLASSES};
use crate::stored::Location;
use crate::Trial;

/// Few enough services and locations that records match.
pub const COUNTRIES: [u8; 2] = [1, 15];
pub const NUMBERS: [u8; 2] = [0, 63];
pub const LOCATIONS: [u16; 4] = [1, 0x0100, 0xFBFF, 0];
/// Codes at the first FLT code.
pub const NEAR_FLT: [u16; 3] = [0xFBFF, 0xFC00, 0xFFFF];

/// The used records of a table.
pub fn used(table: &[u8]) -> impl Iterator<Item = &[u8; RECORD]> {
    let records = table.as_chunks().0.iter();
    records.filter(|record: &&[u8; RECORD]| record[0] == 1)
}

/// The number of these bytes of a record.
fn number(record: &[u8], range: Range<usize>) -> u32 {
    let bytes = record[range].iter().rev();
    bytes.fold(0, |number, &byte| number << 8 | u32::from(byte))
}

/// The first event of a record.
pub fn event_of(record: &[u8]) -> u16 {
    number(record, 6..8) as u16
}

/// The minute at which a record expires.
pub fn expiry_of(record: &[u8]) -> u32 {
    number(record, 12..16)
}

/// The service of a record.
pub fn service_of(record: &[u8]) -> Service {
    Service {
        country: record[31],
        ltn: record[3],
        sid: record[2],
    }
}

/// The location of a record.
pub fn location_of(record: &[u8]) -> Location {
    Location {
        country: record[32],
        ltn: record[33],
        code: number(record, 4..6) as u16,
    }
}

/// Whether a location is in the service's own table.
pub fn at_home(location: Location, service: Service) -> bool {
    (location.country, location.ltn) == (service.country, service.ltn)
}

/// Gives a record these parts as its content.
pub fn set_content(record: &mut [u8; RECORD], parts: &[u32]) {
    let mut fields: Vec<_> = parts.iter().map(|&part| (part.into(), 28)).collect();
    fields.resize(4, (0, 28));
    record[1] = 1 + parts.len() as u8;
    record[16..30].copy_from_slice(&sender::Bits::of(&fields).bytes());
}

/// A class that an event may have.
fn any_class(random: &mut Random) -> u8 {
    match random.once_in(4) {
        true => 1 + random.below(63) as u8,
        false => random.pick(&CLASSES),
    }
}

impl Trial {
    /// A report that fits, often with additional events if it is of several groups.
    pub fn with_events(&mut self, mut report: Report, lists: &Lists) -> Report {
        if report.form == 1 && self.random.once_in(2) {
            for _ in 0..=self.random.below(3) {
                let kinds: &[u16] = self.random.pick(&[&[0, 3], &[1, 2], &[1, 2]]);
                let event = self.event(lists, kinds);
                report = sender::with_event(&mut self.random, report, event);
            }
        }
        report
    }

    /// A used record that a renewal accepts. It may store other classes than those of its events.
    pub fn record(&mut self, minute: u32, lists: &Lists) -> [u8; RECORD] {
        let event = self.event(lists, &[1, 2]);
        let report = Message::random(&mut self.random).report;
        let report = self.with_events(report, lists);
        let random = &mut self.random;
        let mut record = [0; RECORD];
        let mut content = match report.form {
            0 => vec![],
            _ => sender::item_parts(&report.items[..report.item_count]),
        };
        if report.form == 1 && random.once_in(4) {
            // More groups than the fewest.
            content.resize((content.len() + random.index(4)).min(4), 0);
        }
        set_content(&mut record, &content);
        let near = minute.wrapping_add(random.below(6) as u32).wrapping_sub(2);
        let expiry = match random.below(4) {
            0 => random.number() as u32,
            1 => u32::MAX,
            _ => near,
        };
        record[0] = 1;
        record[2] = random.pick(&NUMBERS);
        record[3] = random.pick(&NUMBERS);
        let location = match random.once_in(16) {
            true => random.pick(&NEAR_FLT),
            false => random.pick(&LOCATIONS),
        };
        record[4..6].copy_from_slice(&location.to_le_bytes());
        record[6..8].copy_from_slice(&event.to_le_bytes());
        record[8] = random.byte(1);
        record[9] = random.byte(3);
        record[10] = report.diversion;
        record[11] = report.duration;
        if random.once_in(8) {
            record[10] = random.byte(1);
            record[11] = random.byte(3);
        }
        record[12..16].copy_from_slice(&expiry.max(1).to_le_bytes());
        record[31] = random.pick(&COUNTRIES);
        self.locate(&mut record);
        self.store(&mut record, lists);
        record
    }

    /// Stores the classes of a record's events, now and then others.
    fn store(&mut self, record: &mut [u8; RECORD], lists: &Lists) {
        let random = &mut self.random;
        let events = Classes::of_record(&lists.catalogue, record);
        let classes = match (random.below(4), events) {
            (1.., Some(events)) => events.set(),
            _ => (0..=random.below(3)).map(|_| any_class(random)).collect(),
        };
        record[STORED].copy_from_slice(&classes::bytes(&classes));
    }

    /// Gives a used record content that mostly does not read as items, or a first event without a
    /// class.
    pub fn spoil(&mut self, record: &mut [u8; RECORD], lists: &Lists) {
        let random = &mut self.random;
        match random.below(4) {
            0 => {
                let groups = random.index(5);
                let parts: Vec<_> = (0..groups).map(|_| random.bits(28) as u32).collect();
                set_content(record, &parts);
            }
            1 => {
                let broken = Break::random(random, 0);
                set_content(record, &broken.parts(random));
            }
            _ => {
                let event = self.event(lists, &[0, 3]);
                record[6..8].copy_from_slice(&event.to_le_bytes());
            }
        }
    }

    /// Sets the table of a record's location: the service's own, or any of a few.
    fn locate(&mut self, record: &mut [u8; RECORD]) {
        let random = &mut self.random;
        (record[32], record[33]) = match random.once_in(2) {
            true => (record[31], record[3]),
            false => (random.pick(&COUNTRIES), random.pick(&NUMBERS)),
        };
    }

    /// A well-formed table around a minute, now and then with records that a renewal refuses.
    pub fn table(&mut self, minute: u32, lists: &Lists) -> Vec<u8> {
        let sizes: &[usize] = match self.random.below(40) {
            0 => &[1024],
            1 => &[256, 64, 1023],
            2..10 => &[16, 33],
            _ => &[1, 2, 3, 4, 5, 8],
        };
        let count = self.random.pick(sizes);
        let free = self.random.pick(&[1, 2, 10, 1000]);
        let mut table = vec![0; RECORD * count];
        let mut last = self.record(minute, lists);
        for record in table.chunks_mut(RECORD) {
            if self.random.once_in(free) {
                continue;
            }
            if self.random.once_in(4) {
                // The one before it again, or but for the table of its location.
                if self.random.once_in(2) {
                    self.locate(&mut last);
                }
            } else {
                last = self.record(minute, lists);
            }
            record.copy_from_slice(&last);
        }
        if self.random.once_in(4) {
            for _ in 0..=self.random.index(2 + count / 4) {
                let record = &mut table.as_chunks_mut::<RECORD>().0[self.random.index(count)];
                if record[0] == 1 {
                    self.spoil(record, lists);
                }
            }
        }
        table
    }

    /// Makes a table malformed, mostly.
    pub fn malform(&mut self, table: &mut Vec<u8>) {
        let random = &mut self.random;
        let at = random.index(table.len());
        let record = at / RECORD * RECORD;
        match random.below(12) {
            0 => table.truncate(at),
            1 => table.resize(RECORD * 1025, 0),
            2 => table.push(0),
            3 | 4 => table[at] ^= 1 << random.below(8),
            5 => table[at] = random.number() as u8,
            6 => table[record] = random.below(3) as u8,
            7 => table[record + 32 + random.index(2)] = random.pick(&[15, 16, 63, 64, 255]),
            8 => {
                table[record + 1] = random.below(8) as u8;
                table[record + 12..record + 16].fill(random.below(2) as u8);
            }
            9 => table[record..][STORED].fill(0),
            // Class 0, with the others or alone.
            10 => table[record + STORED.start] |= 1,
            _ => table[record + 30] = random.pick(&[1, 9, 63, 64, 128]),
        }
    }
}
