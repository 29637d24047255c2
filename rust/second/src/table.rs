//! The message table: 1 to 1,024 records of lent bytes.

use std::ops::BitOr;

use crate::clock::{self, Utc};
use crate::content::{Content, Item};
use crate::inter_road::{flt_code, is_flt, Location};
use crate::report::Report;
use crate::word::{Head, CONTENT_BITS};
use crate::{require, Refusal};

/// Bytes of a record.
pub const RECORD: usize = 42;
/// The most records of a table.
pub const MOST_RECORDS: usize = 1024;
/// Entries of a catalogue.
pub const EVENTS: usize = 2048;
/// Lives: one for each duration of each duration type.
pub const LIVES: usize = 16;

type Record = [u8; RECORD];

const FREE: Record = [0; RECORD];

// Offsets of a record's fields.
const GROUPS: usize = 1;
const SID: usize = 2;
const LTN: usize = 3;
const LOCATION: usize = 4;
const EVENT: usize = 6;
const DIRECTION: usize = 8;
const EXTENT: usize = 9;
const DIVERSION: usize = 10;
const DURATION: usize = 11;
const EXPIRY: usize = 12;
const CONTENT: usize = 16;
const COUNTRY: usize = 31;
const LOCATION_COUNTRY: usize = 32;
const LOCATION_LTN: usize = 33;
const CLASSES: usize = 34;

/// Label of an additional event.
const ADDITIONAL_EVENT: u8 = 9;

/// The bits that are zero in bytes 2 to 11 of every record.
const ZERO_BITS: u128 = u128::from_le_bytes([
    0, 0, 0xC0, 0xC0, 0, 0, 0, 0xF8, 0xFE, 0xF8, 0xFE, 0xF8, 0, 0, 0, 0,
]);
/// The bits of the first part that two matching records share: use, service, location's code,
/// direction.
const MATCH_BITS: u128 = u128::from_le_bytes([
    0xFF, 0, 0xFF, 0xFF, 0xFF, 0xFF, 0, 0, 0xFF, 0, 0, 0, 0, 0, 0, 0,
]);
/// The bits that are zero in the second part of a record of so many groups: the content after its
/// 28 bits a later group, byte 30, and the top of the country.
const ZERO_TAIL: [u128; 6] = {
    let mut bits = [u128::MAX; 6];
    let mut groups = 1;
    while groups <= 5 {
        let content = 112 - CONTENT_BITS * (groups as u32 - 1);
        bits[groups] = u128::swap_bytes(((1 << content) - 1) << 16 | 0xFFF0);
        groups += 1;
    }
    bits
};

/// The bits that are zero in the location's country and table number.
const ZERO_LOCATION: u16 = u16::from_le_bytes([0xF0, 0xC0]);

/// A service.
#[derive(Clone, Copy, Debug, PartialEq, Eq)]
pub struct Service {
    pub country: u8,
    pub ltn: u8,
    pub sid: u8,
}

impl Service {
    /// Whether every field is in its range.
    const fn fits(self) -> bool {
        self.country <= 15 && self.ltn <= 63 && self.sid <= 63
    }
}

/// A used record, read.
#[derive(Clone, Copy, Debug, PartialEq, Eq)]
pub struct Entry {
    pub report: Report,
    pub service: Service,
    pub expiry: u32,
}

/// What is lent to a take: the events' classes and kinds, and the lives.
#[derive(Clone, Copy, Debug)]
pub struct Lists<'a> {
    pub catalogue: &'a [u16],
    pub lives: &'a [u16],
}

/// A report as it comes in.
#[derive(Clone, Copy, Debug)]
pub struct Arrival<'a> {
    pub report: &'a Report,
    pub service: Service,
    pub lto: i8,
    pub minute: Utc,
}

/// What a take does with an ordinary report when no record is free for it.
#[derive(Clone, Copy, Debug, Default, PartialEq, Eq)]
pub enum WhenFull {
    /// Drops the record that expires soonest, and stores the report in its place.
    #[default]
    Drop,
    /// Keeps all records, and refuses the report.
    Keep,
}

/// What taking a report did.
#[derive(Clone, Copy, Debug, Default, PartialEq, Eq)]
pub struct Taken {
    pub expired: usize,
    pub matched: usize,
    /// The record's number, if the report was stored.
    pub place: Option<usize>,
    /// The number of the record that was dropped for it, if one was.
    pub dropped: Option<usize>,
}

/// The kind of an event in the catalogue.
#[derive(Clone, Copy, Debug, PartialEq, Eq)]
enum Kind {
    Unknown,
    Ordinary,
    Cancelling,
    Null,
}

/// A set of update classes, class c as bit c.
type Classes = u64;

/// Class 0, which no event has.
const CLASS_0: Classes = 1;

/// An entry of the catalogue.
#[derive(Clone, Copy)]
struct Event(u16);

impl Event {
    const fn class(self) -> u8 {
        self.0 as u8 & 63
    }

    const fn kind(self) -> Kind {
        match self.0 >> 6 & 3 {
            0 => Kind::Unknown,
            1 => Kind::Ordinary,
            2 => Kind::Cancelling,
            _ => Kind::Null,
        }
    }

    /// The set of its class; kinds 0 and 3 have none.
    #[inline]
    const fn classes(self) -> Classes {
        match self.kind() {
            Kind::Unknown | Kind::Null => 0,
            Kind::Ordinary | Kind::Cancelling => 1 << self.class(),
        }
    }

    const fn duration_type(self) -> u8 {
        (self.0 >> 8) as u8 & 1
    }

    /// Whether the rest is 0, and the class is 0 exactly if the kind is 0 or 3.
    #[inline]
    const fn fits(self) -> bool {
        let low = self.0 >> 6 & 1;
        let high = self.0 >> 7 & 1;
        (self.0 < 1 << 9) & ((self.0 & 63 == 0) == (low == high))
    }
}

/// A well-formed catalogue.
#[derive(Clone, Copy)]
struct Catalogue<'a>(&'a [u16; EVENTS]);

impl<'a> Catalogue<'a> {
    /// Refuses 10 a malformed one, of another size too.
    #[inline]
    fn new(entries: &'a [u16]) -> Result<Self, Refusal> {
        let entries: &[u16; EVENTS] = entries.try_into().map_err(|_| Refusal::Malformed)?;
        let fit = |fit, &entry: &u16| fit & Event(entry).fits();
        require(entries.iter().fold(true, fit), Refusal::Malformed)?;
        Ok(Self(entries))
    }

    /// The entry of an event code.
    #[inline]
    fn event(self, code: u16) -> Event {
        Event(self.0[usize::from(code)])
    }

    /// The class of an additional event; none of another item.
    #[inline]
    fn additional(self, item: Item) -> Classes {
        match item.label {
            ADDITIONAL_EVENT => self.event(item.value).classes(),
            _ => 0,
        }
    }

    /// The classes of all events of a report that fits, the first and the additional ones.
    #[inline]
    fn of_report(self, report: &Report) -> Classes {
        let additional = report.items.as_slice().iter();
        let classes = additional.map(|&item| self.additional(item));
        classes.fold(self.event(report.head.event).classes(), BitOr::bitor)
    }

    /// The same of a used record; refuses 10 one whose first event has no class or whose content
    /// does not read as items.
    #[inline]
    fn of_record(self, record: &Record) -> Result<Classes, Refusal> {
        let mut classes = self.event(number(record, EVENT)).classes();
        require(classes != 0, Refusal::Malformed)?;
        let read = content(record).each_item(|item| classes |= self.additional(item));
        require(read.is_ok(), Refusal::Malformed)?;
        Ok(classes)
    }
}

/// Whether lives are well-formed, their number included.
#[inline]
fn lives_fit(lives: &[u16]) -> bool {
    lives.len() == LIVES && lives.iter().all(|&life| life <= clock::LONGEST_LIFE)
}

/// So many bytes of a record.
#[inline]
fn bytes<const N: usize>(record: &Record, at: usize) -> [u8; N] {
    *record[at..].first_chunk().unwrap_or(&[0; N])
}

/// The first part of a record, 16 bytes, first byte lowest.
#[inline]
fn front(record: &Record) -> u128 {
    u128::from_le_bytes(bytes(record, 0))
}

/// The second part of a record, 16 bytes, first byte lowest.
#[inline]
fn tail(record: &Record) -> u128 {
    u128::from_le_bytes(bytes(record, CONTENT))
}

/// The number of two bytes of a record, low byte first.
#[inline]
fn number(record: &Record, at: usize) -> u16 {
    u16::from_le_bytes(bytes(record, at))
}

#[inline]
fn is_free(record: &Record) -> bool {
    record[0] == 0
}

#[inline]
fn expiry(record: &Record) -> u32 {
    u32::from_le_bytes(bytes(record, EXPIRY))
}

/// The classes that a record stores.
#[inline]
fn classes(record: &Record) -> Classes {
    u64::from_le_bytes(bytes(record, CLASSES))
}

/// The content of a used record, of no parts if it has one group.
#[inline]
fn content(record: &Record) -> Content {
    Content {
        parts: record[GROUPS] - 1,
        bits: tail(record).swap_bytes() >> 16 << 16,
    }
}

#[inline]
fn is_well_formed(record: &Record) -> bool {
    let (front, tail) = (front(record), tail(record));
    let location = number(record, LOCATION_COUNTRY);
    let classes = classes(record);
    if front as u8 == 0 {
        return front | tail | u128::from(location) | u128::from(classes) == 0;
    }
    let zero_tail = ZERO_TAIL[usize::from(record[GROUPS]).min(5)];
    (front as u8 == 1)
        & (1..=5).contains(&record[GROUPS])
        & (front & ZERO_BITS == 0)
        & (expiry(record) != 0)
        & (tail & zero_tail == 0)
        & (location & ZERO_LOCATION == 0)
        & (classes != 0)
        & (classes & CLASS_0 == 0)
}

/// The records of a well-formed table; else 10.
#[inline]
fn records(table: &[u8]) -> Result<&[Record], Refusal> {
    let (records, rest) = table.as_chunks();
    let fit = rest.is_empty()
        && (1..=MOST_RECORDS).contains(&records.len())
        && records.iter().all(is_well_formed);
    require(fit, Refusal::Malformed)?;
    Ok(records)
}

/// Refuses 13 a minute below the last accepted one or too large.
#[inline]
fn check_minute(last: Utc, minute: Utc) -> Result<(), Refusal> {
    require(
        last <= minute && minute.0 <= clock::LARGEST,
        Refusal::Minute,
    )
}

/// Frees the records whose expiry is at or below `minute`, which becomes the last accepted one,
/// and gives their number. Refuses 10 a malformed table, 13 the minute.
#[inline]
pub fn expire(table: &mut [u8], last: &mut Utc, minute: Utc) -> Result<usize, Refusal> {
    records(table)?;
    check_minute(*last, minute)?;
    *last = minute;
    let mut expired = 0;
    for record in table.as_chunks_mut().0 {
        if !is_free(record) && expiry(record) <= minute.0 {
            *record = FREE;
            expired += 1;
        }
    }
    Ok(expired)
}

/// The number of the record that goes when none is free: of those that expire soonest, the lowest.
/// Refuses 14 where all are kept.
#[inline]
fn place_to_drop(records: &[Record], when_full: WhenFull) -> Result<usize, Refusal> {
    require(when_full == WhenFull::Drop, Refusal::NoRoom)?;
    let soonest = (0..records.len()).min_by_key(|&i| expiry(&records[i]));
    soonest.ok_or(Refusal::NoRoom)
}

/// Takes a report, which matches by the classes that the records store. Refuses, in this order, a
/// malformed table, catalogue or lives (10), an unfit report, service or offset (9), the minute
/// (13), a location whose code is an FLT code (12), an unknown event (11) and a lack of room where
/// all records are kept (14).
#[inline]
pub fn take(
    table: &mut [u8],
    lists: Lists,
    last: &mut Utc,
    arrival: Arrival,
    when_full: WhenFull,
) -> Result<Taken, Refusal> {
    records(table)?;
    let catalogue = Catalogue::new(lists.catalogue)?;
    require(lives_fit(lists.lives), Refusal::Malformed)?;
    let Arrival {
        report,
        service,
        lto,
        minute,
    } = arrival;
    let mut packed = report.pack()?;
    let fit = service.fits() && lto.unsigned_abs() <= clock::LARGEST_LTO;
    require(fit, Refusal::Unfit)?;
    check_minute(*last, minute)?;
    let location = report.location(service.country, service.ltn);
    require(!is_flt(location.code), Refusal::Foreign)?;
    let event = catalogue.event(report.head.event);
    let kind = event.kind();
    require(kind != Kind::Unknown, Refusal::UnknownEvent)?;

    let life = lists.lives[usize::from(8 * event.duration_type() + report.duration)];
    if report.is_inter_road() {
        // A record has the items alone.
        let content = Content::write(&report.items)?;
        packed = (1 + content.parts, content);
    }
    let entry = Entry {
        report: *report,
        service,
        expiry: minute.expiry(lto, life)?.0,
    };
    let new_classes = catalogue.of_report(report);
    let new = entry.write(location, packed, new_classes);
    let new_front = front(&new) & MATCH_BITS;
    let matches = |record: &Record| {
        kind != Kind::Null
            && front(record) & MATCH_BITS == new_front
            && record[COUNTRY..CLASSES] == new[COUNTRY..CLASSES]
            && classes(record) & new_classes != 0
    };

    let mut taken = Taken::default();
    let mut free = None;
    let records = table.as_chunks_mut().0;
    for (i, record) in records.iter_mut().enumerate() {
        if !is_free(record) {
            if expiry(record) <= minute.0 {
                taken.expired += 1;
            } else if matches(record) {
                taken.matched += 1;
            } else {
                continue;
            }
            *record = FREE;
        }
        free = free.or(Some(i));
    }
    if kind == Kind::Ordinary {
        if free.is_none() {
            // None was freed, so all are used, and refusal 14 finds the table as it was.
            taken.dropped = Some(place_to_drop(records, when_full)?);
        }
        taken.place = free.or(taken.dropped);
    }
    if let Some(place) = taken.place {
        records[place] = new;
    }
    *last = minute;
    Ok(taken)
}

/// Works the classes of every used record out anew, from its events and a changed catalogue, and
/// gives the number of these records. Refuses 10 a malformed table or catalogue, and a used record
/// whose first event has no class or whose content does not read as items.
#[inline]
pub fn renew(table: &mut [u8], catalogue: &[u16]) -> Result<usize, Refusal> {
    let records = records(table)?;
    let catalogue = Catalogue::new(catalogue)?;
    // All are worked out before one is written; a free record's stay empty.
    let mut renewed = [0; MOST_RECORDS];
    let mut used = 0;
    for (classes, record) in renewed.iter_mut().zip(records) {
        if !is_free(record) {
            *classes = catalogue.of_record(record)?;
            used += 1;
        }
    }
    let records: &mut [Record] = table.as_chunks_mut().0;
    for (record, classes) in records.iter_mut().zip(renewed) {
        record[CLASSES..].copy_from_slice(&classes.to_le_bytes());
    }
    Ok(used)
}

/// Reads record `i`, `None` if it is free. Refuses 10 a malformed table, 9 a place past the last
/// record, 7 or 8 content that does not read as items.
#[inline]
pub fn read(table: &[u8], i: usize) -> Result<Option<Entry>, Refusal> {
    let record = records(table)?.get(i).ok_or(Refusal::Unfit)?;
    entry_of(record)
}

/// Reads one record's bytes. Refuses 10 what is not one well-formed record, 7 or 8 its content.
#[inline]
pub fn read_record(bytes: &[u8]) -> Result<Option<Entry>, Refusal> {
    let record = bytes.try_into().map_err(|_| Refusal::Malformed)?;
    require(is_well_formed(record), Refusal::Malformed)?;
    entry_of(record)
}

/// What a well-formed record holds.
#[inline]
fn entry_of(record: &Record) -> Result<Option<Entry>, Refusal> {
    if is_free(record) {
        return Ok(None);
    }
    let service = Service {
        country: record[COUNTRY],
        ltn: record[LTN],
        sid: record[SID],
    };
    let location = Location {
        country: record[LOCATION_COUNTRY],
        ltn: record[LOCATION_LTN],
        code: number(record, LOCATION),
    };
    let at_home = (location.country, location.ltn) == (service.country, service.ltn);
    let (code, real_location) = if at_home {
        (location.code, 0)
    } else {
        (flt_code(location.country, location.ltn), location.code)
    };
    let head = Head {
        direction: record[DIRECTION],
        extent: record[EXTENT],
        event: number(record, EVENT),
        location: code,
    };
    let report = if record[GROUPS] > 1 {
        // A multi-group report's duration and diversion are what its items say.
        Report::of_items(head, real_location, content(record).read()?)
    } else {
        Report {
            real_location,
            ..Report::single(record[DURATION], record[DIVERSION], head)
        }
    };
    Ok(Some(Entry {
        report,
        service,
        expiry: expiry(record),
    }))
}

impl Entry {
    /// The record of an entry that fits, with its location, the groups and content of its items
    /// alone, and its classes.
    #[inline]
    fn write(
        &self,
        location: Location,
        (groups, content): (u8, Content),
        classes: Classes,
    ) -> Record {
        let head = self.report.head;
        let mut record = FREE;
        record[0] = 1;
        record[GROUPS] = groups;
        record[SID] = self.service.sid;
        record[LTN] = self.service.ltn;
        record[LOCATION..EVENT].copy_from_slice(&location.code.to_le_bytes());
        record[EVENT..DIRECTION].copy_from_slice(&head.event.to_le_bytes());
        record[DIRECTION] = head.direction;
        record[EXTENT] = head.extent;
        record[DIVERSION] = self.report.diversion;
        record[DURATION] = self.report.duration;
        record[EXPIRY..CONTENT].copy_from_slice(&self.expiry.to_le_bytes());
        record[CONTENT..LOCATION_COUNTRY].copy_from_slice(&content.bits.to_be_bytes());
        record[COUNTRY] = self.service.country;
        record[LOCATION_COUNTRY] = location.country;
        record[LOCATION_LTN] = location.ltn;
        record[CLASSES..].copy_from_slice(&classes.to_le_bytes());
        record
    }
}

#[cfg(test)]
mod tests {
    use super::*;

    const SERVICE: Service = Service {
        country: 13,
        ltn: 17,
        sid: 3,
    };
    /// Event 101: ordinary of class 5; 102: cancelling of class 5; 103: null; 104: of class 6.
    fn catalogue() -> [u16; EVENTS] {
        let mut catalogue = [0; EVENTS];
        catalogue[101] = 1 << 6 | 5;
        catalogue[102] = 2 << 6 | 5;
        catalogue[103] = 3 << 6;
        catalogue[104] = 1 << 8 | 1 << 6 | 6;
        catalogue
    }

    struct Bench {
        table: Vec<u8>,
        catalogue: [u16; EVENTS],
        lives: [u16; LIVES],
        last: Utc,
    }

    impl Bench {
        fn new(records: usize) -> Self {
            let mut lives = [60; LIVES];
            lives[0] = 0;
            Self {
                table: vec![0; RECORD * records],
                catalogue: catalogue(),
                lives,
                last: Utc(0),
            }
        }

        fn take(&mut self, event: u16, location: u16, minute: u32) -> Result<Taken, Refusal> {
            let head = Head {
                direction: 1,
                extent: 2,
                event,
                location,
            };
            let report = Report::single(1, 0, head);
            let arrival = Arrival {
                report: &report,
                service: SERVICE,
                lto: 0,
                minute: Utc(minute),
            };
            let lists = Lists {
                catalogue: &self.catalogue,
                lives: &self.lives,
            };
            let before = (self.table.clone(), self.last);
            let keep = WhenFull::Keep;
            let taken = take(&mut self.table, lists, &mut self.last, arrival, keep);
            if taken.is_err() {
                assert_eq!((self.table.clone(), self.last), before);
            }
            taken
        }
    }

    fn stored(expired: usize, matched: usize, place: usize) -> Result<Taken, Refusal> {
        Ok(Taken {
            expired,
            matched,
            place: Some(place),
            dropped: None,
        })
    }

    #[test]
    fn expiry_at_its_minute() {
        let mut bench = Bench::new(2);
        assert_eq!(bench.take(101, 1, 40), stored(0, 0, 0));
        assert_eq!(read(&bench.table, 0).unwrap().unwrap().expiry, 100);
        let Bench { table, last, .. } = &mut bench;
        assert_eq!(expire(table, last, Utc(99)), Ok(0));
        assert_eq!(expire(table, last, Utc(98)), Err(Refusal::Minute));
        assert_eq!(expire(table, last, Utc(100)), Ok(1));
        assert_eq!(read(table, 0), Ok(None));
        assert_eq!(read(table, 2), Err(Refusal::Unfit));
        let far = Utc(clock::LARGEST + 1);
        assert_eq!(expire(table, last, far), Err(Refusal::Minute));
    }

    #[test]
    fn foreign_locations() {
        let mut bench = Bench::new(1);
        assert_eq!(bench.take(101, 0xFC00, 0), Err(Refusal::Foreign));
        assert_eq!(bench.take(101, 0xFBFF, 0), stored(0, 0, 0));
    }

    #[test]
    fn every_matching_record_goes() {
        let mut bench = Bench::new(4);
        assert_eq!(bench.take(101, 1, 1), stored(0, 0, 0));
        assert_eq!(bench.take(104, 1, 1), stored(0, 0, 1));
        let (first, rest) = bench.table.split_at_mut(2 * RECORD);
        rest[..RECORD].copy_from_slice(&first[..RECORD]);
        assert_eq!(bench.take(101, 2, 1), stored(0, 0, 3));
        assert_eq!(bench.take(101, 3, 1), Err(Refusal::NoRoom));
        assert_eq!(bench.take(101, 1, 2), stored(0, 2, 0));
        let freed = |expired, matched| {
            Ok(Taken {
                expired,
                matched,
                ..Taken::default()
            })
        };
        assert_eq!(bench.take(103, 1, 2), freed(0, 0));
        assert_eq!(bench.take(102, 1, 2), freed(0, 1));
        assert_eq!(bench.take(103, 1, 61), freed(2, 0));
        assert_eq!(bench.table, [0; 4 * RECORD]);
    }

    #[test]
    fn order_of_refusals() {
        let mut bench = Bench::new(1);
        assert_eq!(bench.take(100, 1, 0), Err(Refusal::UnknownEvent));
        assert_eq!(bench.take(100, 0xFFFF, 0), Err(Refusal::Foreign));
        bench.last = Utc(1);
        assert_eq!(bench.take(100, 0xFFFF, 0), Err(Refusal::Minute));
        assert_eq!(bench.take(2048, 0xFFFF, 0), Err(Refusal::Unfit));
        bench.lives[3] = 10_081;
        assert_eq!(bench.take(2048, 0xFFFF, 0), Err(Refusal::Malformed));
    }

    #[test]
    fn malformed_tables() {
        let mut bench = Bench::new(1);
        assert_eq!(bench.take(101, 1, 40), stored(0, 0, 0));
        let good = bench.table.clone();
        let bad = |at: usize, byte: u8| {
            let mut table = good.clone();
            table[at] = byte;
            read(&table, 0) == Err(Refusal::Malformed)
        };
        let limits = [
            (1, 5),
            (2, 63),
            (3, 63),
            (7, 7),
            (8, 1),
            (9, 7),
            (10, 1),
            (11, 7),
        ];
        let ends = [(30, 0), (31, 15), (32, 15), (33, 63)];
        for (at, most) in limits.into_iter().chain(ends) {
            assert!(!bad(at, most), "{at}");
            assert!(bad(at, most + 1), "{at}");
            assert!(bad(at, 255), "{at}");
        }
        for at in [0, 1, 12] {
            assert!(bad(at, 0), "{at}");
        }
        // Class 5 is stored: none, with class 0, with all classes of a byte.
        assert!(bad(34, 0));
        assert!(bad(34, 0x21));
        assert!(!bad(34, 0xFE));
        for at in 35..RECORD {
            assert!(!bad(at, 255), "{at}");
        }
        for at in 16..30 {
            assert!(bad(at, 1), "{at}");
        }
        assert!(bad(0, 2));
        for at in 1..RECORD {
            let mut free = FREE;
            free[at] = 0x80;
            assert_eq!(read(&free, 0), Err(Refusal::Malformed), "{at}");
        }
        for length in [0, RECORD - 1, RECORD + 1, RECORD * 1025] {
            assert_eq!(read(&vec![0; length], 0), Err(Refusal::Malformed));
        }
        assert_eq!(read(&vec![0; RECORD * 1024], 1023), Ok(None));
    }
}
