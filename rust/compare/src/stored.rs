//! What a table stores of a report, worked out without either program.

use proved::{Item, Report, Service};
use sender::{Bits, CONTENT_BITS, WIDTHS};

use crate::classes::{self, Set};

/// The minute at which a life ends: life 0 at the next minute that is a midnight of the service.
pub fn expiry(minute: u32, lto: i8, life: u16) -> u32 {
    let midnight = |&minute: &i64| (minute + 30 * i64::from(lto)).rem_euclid(1440) == 0;
    let minute = i64::from(minute);
    let end = match life {
        0 => (minute + 1..=minute + 1440).find(midnight),
        _ => Some(minute + i64::from(life)),
    };
    end.unwrap_or_default() as u32
}

/// A location in all its parts.
#[derive(Clone, Copy, Debug, PartialEq, Eq)]
pub struct Location {
    pub country: u8,
    pub ltn: u8,
    pub code: u16,
}

/// The location of a report of a service: the real one if it is INTER-ROAD.
pub fn location(report: &Report, service: Service) -> Location {
    let flt = report.head.location;
    match sender::is_inter_road(report) {
        true => Location {
            country: (flt / 64 % 16) as u8,
            ltn: (flt % 64) as u8,
            code: report.real_location,
        },
        false => Location {
            country: service.country,
            ltn: service.ltn,
            code: flt,
        },
    }
}

/// The report that a record of it reads back as: with the service's own FLT code it is at home.
pub fn read_back(mut report: Report, service: Service) -> Report {
    if sender::is_inter_road(&report)
        && report.head.location == sender::flt_code(service.country, service.ltn)
    {
        report.head.location = report.real_location;
        report.real_location = 0;
    }
    report
}

/// A number of so many bits at the front and what follows it, if there are as many.
fn front(bits: &[bool], width: usize) -> Option<(u16, &[bool])> {
    let (front, rest) = bits.split_at_checked(width)?;
    let number = |n, &bit: &bool| 2 * n + u16::from(bit);
    Some((front.iter().fold(0, number), rest))
}

/// The items that bits are, if they are items.
fn items_of(mut bits: &[bool]) -> Option<Vec<Item>> {
    let mut items = Vec::new();
    while bits.contains(&true) {
        let (label, rest) = front(bits, 4)?;
        let width = *WIDTHS.get(usize::from(label))?;
        let (value, rest) = front(rest, width as usize)?;
        items.push(Item { label, value });
        bits = rest;
    }
    Some(items)
}

/// The items that a record has as its content, none if that does not read as items.
pub fn record_items(record: &[u8]) -> Option<Vec<Item>> {
    let bytes: Vec<_> = record[16..30]
        .iter()
        .map(|&byte| (byte.into(), 8))
        .collect();
    let length = 28 * usize::from(record[1]).saturating_sub(1);
    items_of(&Bits::of(&bytes).0[..length.min(CONTENT_BITS)])
}

/// The bytes of a record that stores these classes.
pub fn record(report: &Report, service: Service, expiry: u32, classes: &Set) -> Vec<u8> {
    let Location { country, ltn, code } = location(report, service);
    let items = &report.items[..report.item_count];
    let groups = match report.form {
        0 => 1,
        _ => 1 + sender::item_parts(items).len(),
    };
    let mut content = Bits::default();
    content.add_items(items);
    content.pad(CONTENT_BITS);
    let head = report.head;
    let mut record = vec![1, groups as u8, service.sid, service.ltn];
    record.extend(code.to_le_bytes());
    record.extend(head.event.to_le_bytes());
    record.extend([head.direction, head.extent]);
    record.extend([report.diversion, report.duration]);
    record.extend(expiry.to_le_bytes());
    record.extend(content.bytes());
    record.extend([0, service.country, country, ltn]);
    record.extend(classes::bytes(classes));
    record
}
