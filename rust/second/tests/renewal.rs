//! The worked cases of R-5: a record stores the classes of its events, a take matches by them, and
//! a renewal works them out anew.

#![deny(warnings)]

use common::{catalogue, head, multi, stored, Table, MINUTE};
use events::{freed, single, table, with, EVENTS, EXPIRY, LOCATION};
use second::clock::Utc;
use second::table::{expire, read, read_record, renew, RECORD};
use second::Refusal;

mod common;
#[path = "common/events.rs"]
mod events;

/// The bytes of a record's classes.
const CLASSES: usize = 34;

/// A table of a single-group report of event 201, these of its bytes changed.
fn changed(changes: &[(usize, u8)]) -> Table {
    let mut table = table(&[single(201)]);
    for &(at, byte) in changes {
        table.bytes[at] = byte;
    }
    table
}

/// Of two groups, with label 10 and no bits for its value after six separators.
fn cut_item() -> Table {
    changed(&[(1, 2), (16, 0xEE), (17, 0xEE), (18, 0xEE), (19, 0xA0)])
}

/// Of two groups, with label 15.
fn label_15() -> Table {
    changed(&[(1, 2), (16, 0xF0)])
}

/// A first event that the catalogue does not know.
fn unknown_event() -> Table {
    changed(&[(6, 0x2C), (7, 0x01)])
}

/// A first event that is null.
fn null_event() -> Table {
    changed(&[(6, 0xFF), (7, 0x07)])
}

/// Without a class, with class 0 beside class 5 and alone, with the class byte of before.
fn malformed() -> [Table; 4] {
    [
        changed(&[(CLASSES, 0x00)]),
        changed(&[(CLASSES, 0x21)]),
        changed(&[(CLASSES, 0x01)]),
        changed(&[(30, 9)]),
    ]
}

/// The events, of which these have another entry.
fn but(events: &[(usize, u16)]) -> Vec<(usize, u16)> {
    [&EVENTS, events].concat()
}

/// A renewal with these events. It must change nothing but the classes of used records, and
/// nothing at all if it is refused.
fn renewed(table: &mut Table, events: &[(usize, u16)]) -> Result<usize, Refusal> {
    let before = table.bytes.clone();
    let used = renew(&mut table.bytes, &catalogue(events));
    for (i, before) in before.chunks(RECORD).enumerate() {
        let same = match used.is_ok() && before[0] == 1 {
            true => CLASSES,
            false => RECORD,
        };
        assert_eq!(table.record(i)[..same], before[..same]);
    }
    used
}

/// The classes of a record, first byte first.
fn classes(table: &Table, i: usize) -> [u8; 8] {
    table.record(i)[CLASSES..].try_into().unwrap()
}

#[test]
fn the_record_of_two_events() {
    let report = multi(head(201, LOCATION), 0, &[(9, 641), (0, 2)]);
    let mut table = table(&[report]);
    let mut bytes = [0; RECORD];
    bytes[..19].copy_from_slice(&[
        0x01, 0x02, 0x03, 0x11, 0xF4, 0x01, 0xC9, 0x00, 0x00, 0x01, 0x00, 0x02, 0xA0, 0x00, 0x00,
        0x00, 0x95, 0x02, 0x08,
    ]);
    bytes[30..36].copy_from_slice(&[0x00, 0x0D, 0x0D, 0x11, 0x20, 0x02]);
    assert_eq!(table.record(0), bytes);
    assert_eq!(table.report(0), report);

    // The same catalogue, another class of 641, no class of 201.
    assert_eq!(renewed(&mut table, &EVENTS), Ok(1));
    assert_eq!(table.record(0), bytes);
    assert_eq!(renewed(&mut table, &but(&[(641, 0x4A)])), Ok(1));
    bytes[34..36].copy_from_slice(&[0x20, 0x04]);
    assert_eq!(table.record(0), bytes);
    let unknown = renewed(&mut table, &but(&[(201, 0x00)]));
    assert_eq!(unknown, Err(Refusal::Malformed));
    assert_eq!(table.record(0), bytes);
    assert_eq!(table.report(0), report);
}

#[test]
fn class_63() {
    let mut table = Table::new(2, &[(201, 0x7F), (641, 0x40 | 56), (101, 0x47)]);
    assert_eq!(table.take(&single(201)), stored(0, 0));
    assert_eq!(classes(&table, 0), [0, 0, 0, 0, 0, 0, 0, 0x80]);
    assert_eq!(table.report(0), single(201));
    assert_eq!(table.take(&single(641)), stored(0, 1));
    assert_eq!(classes(&table, 1), [0, 0, 0, 0, 0, 0, 0, 0x01]);
    assert_eq!(table.take(&single(101)), Err(Refusal::NoRoom));
    assert_eq!(table.take(&with(101, &[201, 641])), stored(2, 0));
    assert_eq!(classes(&table, 0), [0x80, 0, 0, 0, 0, 0, 0, 0x81]);
}

#[test]
fn malformed_classes() {
    let refused = Refusal::Malformed;
    for mut table in malformed() {
        let before = table.bytes.clone();
        let mut last = Utc(MINUTE);
        for minute in [MINUTE, EXPIRY, MINUTE - 1] {
            let expired = expire(&mut table.bytes, &mut last, Utc(minute));
            assert_eq!(expired, Err(refused));
        }
        assert_eq!((&table.bytes, last), (&before, Utc(MINUTE)));
        // The record, the free one after it, and its bytes alone.
        assert_eq!(read(&table.bytes, 0), Err(refused));
        assert_eq!(read(&table.bytes, 1), Err(refused));
        assert_eq!(read_record(table.record(0)), Err(refused));
        assert_eq!(read_record(table.record(1)), Ok(None));
        for event in [201, 2028, 2047] {
            assert_eq!(table.take(&single(event)), Err(refused));
            assert_eq!(table.take_at(&single(event), EXPIRY), Err(refused));
        }
        assert_eq!(renewed(&mut table, &EVENTS), Err(refused));
    }
    // A free record has no classes.
    for at in [30, CLASSES, RECORD - 1] {
        let mut table = Table::new(1, &EVENTS);
        table.bytes[at] = 0x80;
        assert_eq!(table.take(&single(2047)), Err(refused));
        assert_eq!(renewed(&mut table, &EVENTS), Err(refused));
    }
}

#[test]
fn refusals_of_a_take_in_order() {
    let mut unfit = single(300);
    unfit.duration = 8;
    let mut foreign = single(300);
    foreign.head.location = 0xFC00;
    let mut elsewhere = single(201);
    elsewhere.head.location += 1;
    for (report, minute, refusal) in [
        (unfit, MINUTE - 1, Refusal::Unfit),
        (foreign, MINUTE - 1, Refusal::Minute),
        (foreign, MINUTE, Refusal::Foreign),
        (single(300), MINUTE, Refusal::UnknownEvent),
        (elsewhere, MINUTE, Refusal::NoRoom),
    ] {
        // A table of one record, its clock at the minute.
        let mut table = Table::new(1, &EVENTS);
        assert_eq!(table.take(&single(201)), stored(0, 0));
        assert_eq!(table.take_at(&report, minute), Err(refusal));
        for other in [cut_item(), label_15(), unknown_event(), null_event()] {
            table.bytes.copy_from_slice(other.record(0));
            assert_eq!(table.take_at(&report, minute), Err(refusal));
        }
        for malformed in malformed() {
            table.bytes.copy_from_slice(malformed.record(0));
            assert_eq!(table.take_at(&report, minute), Err(Refusal::Malformed));
        }
    }
}

#[test]
fn a_take_matches_by_the_stored_classes() {
    // Class 9 in place of class 5, then both, then class 63, which no event has.
    let class_9 = || changed(&[(34, 0x00), (35, 0x02)]);
    assert_eq!(class_9().take(&single(2028)), freed(0, 1));
    assert_eq!(class_9().take(&single(201)), stored(0, 1));
    assert_eq!(class_9().take(&with(201, &[641])), stored(1, 0));
    let both = || changed(&[(35, 0x02)]);
    assert_eq!(both().take(&single(2028)), freed(0, 1));
    assert_eq!(both().take(&single(201)), stored(1, 0));
    assert_eq!(both().take(&single(101)), stored(0, 1));
    let class_63 = || changed(&[(34, 0x00), (41, 0x80)]);
    assert_eq!(class_63().take(&with(201, &[641])), stored(0, 1));
    // All classes match any event of a class, and no null report.
    let all: Vec<_> = (35..RECORD).map(|at| (at, 0xFF)).collect();
    let all = || changed(&[&[(34, 0xFE)], &all[..]].concat());
    assert_eq!(all().take(&single(101)), stored(1, 0));
    assert_eq!(all().take(&with(2047, &[201])), freed(0, 0));
    // What a take leaves has the classes that it had.
    let mut table = class_9();
    assert_eq!(table.take(&single(201)), stored(0, 1));
    assert_eq!(classes(&table, 0), [0, 0x02, 0, 0, 0, 0, 0, 0]);
    assert_eq!(classes(&table, 1), [0x20, 0, 0, 0, 0, 0, 0, 0]);
    // A renewal brings in its event's own.
    assert_eq!(renewed(&mut table, &EVENTS), Ok(2));
    assert_eq!(table.record(0), table.record(1));
    assert_eq!(table.take(&single(201)), stored(2, 0));
}

#[test]
fn records_that_a_renewal_refuses() {
    for (mut table, refusal) in [
        (cut_item(), Some(Refusal::Content { at: 24 })),
        (label_15(), Some(Refusal::Label15 { at: 0 })),
        (unknown_event(), None),
        (null_event(), None),
    ] {
        assert_eq!(renewed(&mut table, &EVENTS), Err(Refusal::Malformed));
        assert_eq!(read(&table.bytes, 0).err(), refusal);
        // A take leaves it or frees it by its class 5, and an expiry frees it at its minute.
        let before = table.record(0).to_vec();
        assert_eq!(table.take(&single(641)), stored(0, 1));
        assert_eq!(table.take(&single(2047)), freed(0, 0));
        assert_eq!(table.take(&single(2028)), freed(0, 1));
        assert_eq!(table.record(0), before);
        let mut expiring = table.bytes.clone();
        let mut last = Utc(MINUTE);
        assert_eq!(expire(&mut expiring, &mut last, Utc(EXPIRY - 1)), Ok(0));
        assert_eq!(expire(&mut expiring, &mut last, Utc(EXPIRY)), Ok(1));
        assert_eq!(table.take(&single(201)), stored(1, 0));
        assert_eq!(renewed(&mut table, &EVENTS), Ok(1));
    }
}

#[test]
fn all_or_nothing() {
    // Of each record the classes would be others.
    let events = but(&[(201, 0x41), (641, 0x42), (101, 0x43)]);
    let good = [single(201), with(641, &[201]), single(101)];
    for place in 0..3 {
        for bad in [cut_item(), label_15(), unknown_event(), null_event()] {
            let mut table = table(&good);
            table.bytes[place * RECORD..][..RECORD].copy_from_slice(bad.record(0));
            assert_eq!(renewed(&mut table, &events), Err(Refusal::Malformed));
        }
    }
    let mut table = table(&good);
    assert_eq!(renewed(&mut table, &events), Ok(3));
    assert_eq!(classes(&table, 0), [0x02, 0, 0, 0, 0, 0, 0, 0]);
    assert_eq!(classes(&table, 1), [0x06, 0, 0, 0, 0, 0, 0, 0]);
    assert_eq!(classes(&table, 2), [0x08, 0, 0, 0, 0, 0, 0, 0]);
    assert_eq!(classes(&table, 3), [0; 8]);
}

#[test]
fn additional_events_of_every_kind() {
    let mut table = table(&[with(201, &[641, 101])]);
    // Class 5 alone, cancelling events of classes 9 and 63, one class for all.
    for (events, low, high) in [
        (&[(641, 0x00), (101, 0xC0)][..], [0x20, 0x00], 0x00),
        (&[(641, 0x89), (101, 0xBF)], [0x20, 0x02], 0x80),
        (&[(641, 0x45), (101, 0x85)], [0x20, 0x00], 0x00),
        (&[(201, 0x85)], [0xA0, 0x02], 0x00),
    ] {
        assert_eq!(renewed(&mut table, &but(events)), Ok(1));
        let [low, next] = low;
        assert_eq!(classes(&table, 0), [low, next, 0, 0, 0, 0, 0, high]);
    }
    for first in [0x00, 0xC0] {
        let refused = renewed(&mut table, &but(&[(201, first)]));
        assert_eq!(refused, Err(Refusal::Malformed));
    }
}

#[test]
fn a_location_abroad() {
    let abroad = multi(head(201, 0xFF41), LOCATION, &[(9, 641)]);
    let mut table = table(&[abroad]);
    assert_eq!(renewed(&mut table, &but(&[(641, 0x4A)])), Ok(1));
    assert_eq!(classes(&table, 0), [0x20, 0x04, 0, 0, 0, 0, 0, 0]);
    assert_eq!(table.report(0), abroad);
}

#[test]
fn malformed_catalogues_and_tables() {
    let good = table(&[single(201)]);
    let refused = |bytes: &[u8], catalogue: &[u16]| {
        let mut after = bytes.to_vec();
        let answer = renew(&mut after, catalogue);
        assert_eq!(after, bytes);
        answer == Err(Refusal::Malformed)
    };
    let entries = catalogue(&EVENTS);
    assert!(refused(&good.bytes, &entries[..2047]));
    assert!(refused(&good.bytes, &[&entries[..], &[0]].concat()));
    assert!(refused(&good.bytes, &[]));
    // Of an event of no record: a class without a kind or a kind without a class, bit 9.
    for entry in [0x01, 0xC1, 0x40, 0x80, 0x245] {
        let entries = catalogue(&but(&[(1000, entry)]));
        assert!(refused(&good.bytes, &entries), "{entry:x}");
    }
    for bytes in [&[][..], &good.bytes[1..], &[0; RECORD * 1025]] {
        assert!(refused(bytes, &entries));
    }
    let mut bytes = good.bytes;
    bytes[RECORD] = 2;
    assert!(refused(&bytes, &entries));
}

#[test]
fn the_number_of_used_records() {
    for records in [1, 2, 1024] {
        let mut table = Table::new(records, &EVENTS);
        assert_eq!(renewed(&mut table, &EVENTS), Ok(0));
        let last = records - 1;
        table.bytes[last * RECORD..].copy_from_slice(changed(&[]).record(0));
        assert_eq!(renewed(&mut table, &but(&[(201, 0x7F)])), Ok(1));
        assert_eq!(classes(&table, last), [0, 0, 0, 0, 0, 0, 0, 0x80]);
    }
}

#[test]
fn the_same_catalogue_changes_nothing() {
    let mut table = Table::new(4, &EVENTS);
    let mut elsewhere = with(641, &[101, 300]);
    elsewhere.head.location += 1;
    for (report, minute, used) in [
        (single(201), MINUTE, 1),
        (with(101, &[2028, 2047]), MINUTE + 1, 2),
        (elsewhere, MINUTE + 2, 3),
        (single(641), MINUTE + 3, 3),
        (single(2028), MINUTE + 4, 2),
        (single(2047), EXPIRY, 1),
    ] {
        assert!(table.take_at(&report, minute).is_ok());
        let before = table.bytes.clone();
        assert_eq!(renewed(&mut table, &EVENTS), Ok(used));
        assert_eq!(table.bytes, before);
    }
}
