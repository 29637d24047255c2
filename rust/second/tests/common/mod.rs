//! What the worked cases of the table share.

use second::clock::Utc;
use second::content::{Item, Items};
use second::report::Report;
use second::table::{self, Arrival, Lists, Service, Taken, WhenFull, EVENTS, LIVES, RECORD};
use second::word::Head;
use second::Refusal;

pub const SERVICE: Service = Service {
    country: 13,
    ltn: 17,
    sid: 3,
};
pub const MINUTE: u32 = 100;

/// A head with the direction and the extent of the worked multi-group messages.
pub fn head(event: u16, location: u16) -> Head {
    Head {
        direction: 0,
        extent: 1,
        event,
        location,
    }
}

/// A multi-group report of these items.
pub fn multi(head: Head, real_location: u16, pairs: &[(u8, u16)]) -> Report {
    let mut items = Items::NONE;
    items.count = pairs.len() as u8;
    for (place, &(label, value)) in items.places.iter_mut().zip(pairs) {
        *place = Item { label, value };
    }
    Report::of_items(head, real_location, items)
}

/// A catalogue of these events with their entries; the others are unknown.
pub fn catalogue(events: &[(usize, u16)]) -> [u16; EVENTS] {
    let mut catalogue = [0; EVENTS];
    for &(event, entry) in events {
        catalogue[event] = entry;
    }
    catalogue
}

/// A table, beside it a catalogue and lives of an hour.
pub struct Table {
    pub bytes: Vec<u8>,
    last: Utc,
    catalogue: [u16; EVENTS],
}

impl Table {
    /// A table of free records with a catalogue of these events.
    pub fn new(records: usize, events: &[(usize, u16)]) -> Self {
        Self {
            bytes: vec![0; records * RECORD],
            last: Utc(0),
            catalogue: catalogue(events),
        }
    }

    fn used(&self) -> usize {
        self.bytes
            .chunks(RECORD)
            .filter(|record| record[0] == 1)
            .count()
    }

    /// A take. An accepted one must move the clock and answer as many records as came and went, a
    /// refused one must leave the table and the clock.
    pub fn take_when_full(
        &mut self,
        report: &Report,
        minute: u32,
        when_full: WhenFull,
    ) -> Result<Taken, Refusal> {
        let lists = Lists {
            catalogue: &self.catalogue,
            lives: &[60; LIVES],
        };
        let arrival = Arrival {
            report,
            service: SERVICE,
            lto: 0,
            minute: Utc(minute),
        };
        let (before, last, used) = (self.bytes.clone(), self.last, self.used());
        let taken = table::take(&mut self.bytes, lists, &mut self.last, arrival, when_full);
        match taken {
            Ok(taken) => {
                let came = usize::from(taken.place.is_some());
                let dropped = usize::from(taken.dropped.is_some());
                let went = taken.expired + taken.matched + dropped;
                assert_eq!(self.used() + went, used + came);
                assert_eq!(self.last, Utc(minute));
            }
            Err(_) => assert_eq!((&self.bytes, self.last), (&before, last)),
        }
        taken
    }

    /// A take that keeps all records when full.
    pub fn take_at(&mut self, report: &Report, minute: u32) -> Result<Taken, Refusal> {
        self.take_when_full(report, minute, WhenFull::Keep)
    }

    /// The same at one minute.
    pub fn take(&mut self, report: &Report) -> Result<Taken, Refusal> {
        self.take_at(report, MINUTE)
    }

    pub fn record(&self, i: usize) -> &[u8] {
        &self.bytes[RECORD * i..][..RECORD]
    }

    pub fn report(&self, i: usize) -> Report {
        let entry = table::read(&self.bytes, i).unwrap().unwrap();
        assert_eq!(entry.service, SERVICE);
        entry.report
    }
}

/// A take that stored, with no record expired or dropped.
pub fn stored(matched: usize, place: usize) -> Result<Taken, Refusal> {
    Ok(Taken {
        matched,
        place: Some(place),
        ..Taken::default()
    })
}
