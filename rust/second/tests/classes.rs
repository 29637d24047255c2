//! The worked cases of R-4: the classes of all events of a report decide what it matches. A record
//! stores the classes of its events.

#![deny(warnings)]

use common::{head, multi, stored};
use events::{freed, single, table, with, EXPIRY, LOCATION};
use second::table::{read, RECORD};

mod common;
#[path = "common/events.rs"]
mod events;

/// Country 13 and table 1.
const FLT: u16 = 0xFF41;

#[test]
fn an_additional_event_of_the_record() {
    let record = with(201, &[641]);
    assert_eq!(table(&[record]).take(&single(2028)), freed(0, 1));
    assert_eq!(table(&[record]).take(&single(641)), stored(1, 0));
    assert_eq!(table(&[record]).take(&single(201)), stored(1, 0));
    assert_eq!(table(&[record]).take(&single(101)), stored(0, 1));
    // One of several, after other items.
    let pairs = [(6, 1), (9, 101), (14, 0), (9, 641), (3, 10)];
    let record = multi(head(201, LOCATION), 0, &pairs);
    assert_eq!(table(&[record]).take(&single(2028)), freed(0, 1));
}

#[test]
fn additional_events_without_a_class() {
    for event in [2047, 1000] {
        let record = with(201, &[event]);
        assert_eq!(table(&[record]).take(&single(2028)), freed(0, 0));
        assert_eq!(table(&[record]).take(&with(101, &[event])), stored(0, 1));
        assert_eq!(table(&[record]).take(&single(201)), stored(1, 0));
        // They are passed over, and what follows counts.
        let record = with(201, &[event, 641]);
        assert_eq!(table(&[record]).take(&single(2028)), freed(0, 1));
    }
}

#[test]
fn an_additional_event_of_the_report() {
    let report = with(201, &[2028]);
    let mut table = table(&[
        single(201),
        single(101),
        single(641),
        with(101, &[641]),
        with(101, &[201]),
    ]);
    assert_eq!(table.take(&report), stored(4, 0));
    assert_eq!(table.report(0), report);
    assert_eq!(table.report(1), single(101));
    let free = Ok(None);
    assert_eq!([2, 3, 4, 5].map(|i| read(&table.bytes, i)), [free; 4]);
}

#[test]
fn an_additional_event_of_each() {
    let record = with(201, &[641]);
    assert_eq!(table(&[record]).take(&with(101, &[641])), stored(1, 0));
    assert_eq!(table(&[record]).take(&with(101, &[2028])), stored(1, 0));
    assert_eq!(table(&[record]).take(&with(101, &[101])), stored(0, 1));
    // The first event alone makes a report cancelling or null.
    assert_eq!(table(&[record]).take(&with(2028, &[101])), freed(0, 1));
    assert_eq!(table(&[record]).take(&with(2047, &[641])), freed(0, 0));
}

#[test]
fn other_locations_and_directions() {
    let mut report = with(201, &[2028]);
    report.head.location = LOCATION + 1;
    assert_eq!(table(&[single(641)]).take(&report), stored(0, 1));
    let mut report = with(201, &[2028]);
    report.head.direction = 1;
    assert_eq!(table(&[single(641)]).take(&report), stored(0, 1));
    // SID, LTN and country of the service, country and LTN of the location.
    for at in [2, 3, 31, 32, 33] {
        let mut table = table(&[with(101, &[641])]);
        table.bytes[at] -= 1;
        assert_eq!(table.take(&with(201, &[2028])), stored(0, 1), "{at}");
    }
}

#[test]
fn inter_road() {
    let abroad = |event, pairs: &[_]| multi(head(event, FLT), LOCATION, pairs);
    let record = abroad(201, &[(9, 641)]);
    assert_eq!(table(&[record]).take(&abroad(2028, &[])), freed(0, 1));
    let report = abroad(101, &[(9, 2028)]);
    assert_eq!(table(&[record]).take(&report), stored(1, 0));
    assert_eq!(table(&[record]).take(&single(2028)), freed(0, 0));
}

#[test]
fn expired_and_matching() {
    let mut table = table(&[with(201, &[641]), single(641)]);
    table.bytes[RECORD + 12] += 1;
    assert_eq!(table.take_at(&single(2028), EXPIRY), freed(1, 1));
}
