//! The worked cases of R-6: a take that finds no record free drops the one that expires soonest,
//! or keeps all and refuses.

#![deny(warnings)]

use common::{head, stored, Table, MINUTE};
use events::{freed, single, table, with, EVENTS, EXPIRY, LOCATION};
use second::report::Report;
use second::table::{Taken, WhenFull, RECORD};
use second::Refusal;

mod common;
#[path = "common/events.rs"]
mod events;

const BOTH: [WhenFull; 2] = [WhenFull::Drop, WhenFull::Keep];
const NOW: u32 = 30;

/// A report that matches no record of another location.
fn at(location: u16) -> Report {
    Report::single(0, 0, head(201, location))
}

/// The record of `at(400)`, taken at minute 30.
fn new_record() -> [u8; RECORD] {
    let mut record = [0; RECORD];
    record[..13].copy_from_slice(&[1, 1, 3, 17, 0x90, 0x01, 0xC9, 0, 0, 1, 0, 0, 90]);
    record[31..35].copy_from_slice(&[13, 13, 17, 0x20]);
    record
}

/// A full table of records that expire so, at locations from [`LOCATION`] on.
fn full(expiries: &[u32]) -> Table {
    let mut table = Table::new(expiries.len(), &EVENTS);
    for (i, expiry) in expiries.iter().enumerate() {
        let report = at(LOCATION + i as u16);
        assert_eq!(table.take_at(&report, 0), stored(0, i));
        table.bytes[i * RECORD + 12..][..4].copy_from_slice(&expiry.to_le_bytes());
    }
    table
}

/// A take of the default.
fn take(table: &mut Table, report: &Report, minute: u32) -> Result<Taken, Refusal> {
    table.take_when_full(report, minute, WhenFull::default())
}

/// A take that stored in the place of a dropped record.
fn dropped(place: usize) -> Result<Taken, Refusal> {
    Ok(Taken {
        place: Some(place),
        dropped: Some(place),
        ..Taken::default()
    })
}

/// A take that stored, with one record expired and none dropped.
fn one_expired(matched: usize, place: usize) -> Result<Taken, Refusal> {
    Ok(Taken {
        expired: 1,
        matched,
        place: Some(place),
        dropped: None,
    })
}

#[test]
fn the_default_is_to_drop() {
    assert_eq!(WhenFull::default(), WhenFull::Drop);
}

#[test]
fn the_soonest_is_dropped() {
    let cases: [(&[u32], usize); 13] = [
        (&[100, 100], 0),
        (&[120, 90], 1),
        (&[90, 120], 0),
        (&[31], 0),
        (&[u32::MAX], 0),
        // The lowest-numbered on a tie.
        (&[120, 90, 90], 1),
        (&[90, 120, 90], 0),
        (&[120, 110, 95, 100, 95, 95], 2),
        (&[u32::MAX; 3], 0),
        // As numbers of 32 bits, low byte first.
        (&[0x100, 0xFF], 1),
        (&[0x0100_0000, 0x00FF_FFFF, 0x0100_0001], 1),
        (&[0x8000_0000, 0x7FFF_FFFF], 1),
        (&[u32::MAX, u32::MAX, u32::MAX - 1], 2),
    ];
    for (expiries, place) in cases {
        let mut table = full(expiries);
        let mut after = table.bytes.clone();
        after[place * RECORD..][..RECORD].copy_from_slice(&new_record());
        assert_eq!(table.take_at(&at(400), NOW), Err(Refusal::NoRoom));
        assert_eq!(take(&mut table, &at(400), NOW), dropped(place));
        assert_eq!(table.bytes, after);
    }
}

#[test]
fn the_largest_table() {
    let mut expiries = [200; 1024];
    assert_eq!(take(&mut full(&expiries), &at(400), NOW), dropped(0));
    expiries[1023] = 199;
    assert_eq!(take(&mut full(&expiries), &at(400), NOW), dropped(1023));
    expiries[511] = 199;
    assert_eq!(take(&mut full(&expiries), &at(400), NOW), dropped(511));
}

#[test]
fn a_report_that_ends_sooner_than_all() {
    let mut table = full(&[300, 200]);
    // It is stored, and is itself the soonest then.
    assert_eq!(take(&mut table, &at(400), NOW), dropped(1));
    assert_eq!(table.record(1), new_record());
    assert_eq!(take(&mut table, &at(401), NOW), dropped(1));
    assert_eq!(table.report(0), at(LOCATION));
    assert_eq!(table.report(1), at(401));
}

#[test]
fn nothing_is_left_of_the_dropped_record() {
    let mut table = table(&[with(201, &[641, 101])]);
    table.bytes.truncate(RECORD);
    assert_eq!(table.take(&at(400)), Err(Refusal::NoRoom));
    assert_eq!(take(&mut table, &at(400), MINUTE), dropped(0));
    let mut record = new_record();
    record[12] = EXPIRY as u8;
    assert_eq!(table.record(0), record);
}

#[test]
fn a_free_record() {
    for when_full in BOTH {
        let mut table = table(&[single(201), single(641)]);
        let taken = table.take_when_full(&at(400), MINUTE, when_full);
        assert_eq!(taken, stored(0, 2));
    }
}

#[test]
fn a_record_matches() {
    for when_full in BOTH {
        // Whether it expires soonest or not.
        for place in [0, 1] {
            let report = at(LOCATION + place as u16);
            let mut table = full(&[100, 90]);
            let other = table.record(1 - place).to_vec();
            let taken = table.take_when_full(&report, NOW, when_full);
            assert_eq!(taken, stored(1, place));
            assert_eq!(table.record(1 - place), other);
        }
        let mut table = table(&[with(201, &[641]), single(641)]);
        table.bytes.truncate(2 * RECORD);
        let taken = table.take_when_full(&single(641), MINUTE, when_full);
        assert_eq!(taken, stored(2, 0));
    }
}

#[test]
fn a_record_has_expired() {
    for when_full in BOTH {
        let mut table = full(&[100, 30, 31]);
        let taken = table.take_when_full(&at(400), NOW, when_full);
        assert_eq!(taken, one_expired(0, 1));
        assert_eq!(table.report(2), at(LOCATION + 2));
        let mut table = full(&[100, 90, 30]);
        let taken = table.take_when_full(&at(LOCATION), NOW, when_full);
        assert_eq!(taken, one_expired(1, 0));
        assert_eq!(table.report(1), at(LOCATION + 1));
    }
}

#[test]
fn cancelling_and_null_reports() {
    for when_full in BOTH {
        for event in [2028, 2047] {
            let mut table = full(&[100, 90]);
            let before = table.bytes.clone();
            let taken = table.take_when_full(&single(event), NOW, when_full);
            assert_eq!(taken, freed(0, 0));
            assert_eq!(table.bytes, before);
            let mut table = full(&[100, 30]);
            let taken = table.take_when_full(&single(event), NOW, when_full);
            assert_eq!(taken, freed(1, 0));
        }
        let mut table = table(&[single(101), with(201, &[641])]);
        table.bytes.truncate(2 * RECORD);
        let taken = table.take_when_full(&single(2028), MINUTE, when_full);
        assert_eq!(taken, freed(0, 1));
    }
}

#[test]
fn refusals_in_order() {
    let mut unfit = single(300);
    unfit.duration = 8;
    let mut foreign = single(300);
    foreign.head.location = 0xFC00;
    for when_full in BOTH {
        let mut table = full(&[200, 150]);
        assert_eq!(table.take_at(&single(2047), NOW), freed(0, 0));
        for (report, minute, refusal) in [
            (unfit, NOW - 1, Refusal::Unfit),
            (foreign, NOW - 1, Refusal::Minute),
            (foreign, NOW, Refusal::Foreign),
            (single(300), NOW, Refusal::UnknownEvent),
        ] {
            let refused = table.take_when_full(&report, minute, when_full);
            assert_eq!(refused, Err(refusal));
        }
        table.bytes[RECORD] = 2;
        let refused = table.take_when_full(&unfit, NOW - 1, when_full);
        assert_eq!(refused, Err(Refusal::Malformed));
    }
}

/// What each call must answer is worked out from the expiries that the records then have.
#[test]
fn one_call_after_another() {
    let mut table = full(&[100, 95, 200]);
    for (location, minute, taken) in [
        (401, 30, dropped(1)),             // 100, 90, 200
        (402, 31, dropped(1)),             // 100, 91, 200
        (403, 45, dropped(1)),             // 100, 105, 200
        (404, 46, dropped(0)),             // 106, 105, 200
        (405, 47, dropped(1)),             // 106, 107, 200
        (404, 50, stored(1, 0)),           // 110, 107, 200
        (406, 50, dropped(1)),             // 110, 110, 200
        (407, 50, dropped(0)),             // 110, 110, 200
        (408, 51, dropped(0)),             // 111, 110, 200
        (409, 110, one_expired(0, 1)),     // 111, 170, 200
        (410, 110, dropped(0)),            // 170, 170, 200
        (LOCATION + 2, 111, stored(1, 2)), // 170, 170, 171
        (411, 160, dropped(0)),            // 220, 170, 171
    ] {
        assert_eq!(take(&mut table, &at(location), minute), taken);
    }
    let reports = [0, 1, 2].map(|i| table.report(i));
    assert_eq!(reports, [at(411), at(409), at(LOCATION + 2)]);
}
