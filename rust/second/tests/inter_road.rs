//! The worked cases of INTER-ROAD: words, reports, records, refusals in order.

#![deny(warnings)]

use common::{head, stored, Table, MINUTE};
use second::assembler::Answer;
use second::drm::{self, Unit};
use second::report::Report;
use second::table::{read_record, RECORD};
use second::word::Head;
use second::Refusal;
use words::{assembled, listed};

mod common;
#[path = "common/words.rs"]
mod words;

/// FLT codes: country 13 and table 1, country 1 and table 9, and the service's own.
const FLT: u16 = 0xFF41;
const OTHER_FLT: u16 = 0xFC49;
const OWN_FLT: u16 = 0xFF51;
/// The first group of all worked messages.
const FIRST: u64 = 0x02_8991_FF41;

/// A multi-group report of event 401.
fn multi(location: u16, real_location: u16, pairs: &[(u8, u16)]) -> Report {
    common::multi(head(401, location), real_location, pairs)
}

/// The report of word 0x0B5065FF41.
fn single() -> Report {
    let head = Head {
        direction: 1,
        extent: 2,
        event: 101,
        location: FLT,
    };
    Report::single(3, 0, head)
}

fn written(report: &Report, index: u8) -> Result<Vec<u64>, Refusal> {
    let mut out = [0; 5];
    let count = report.write(index, &mut out)?;
    Ok(out[..count].to_vec())
}

/// A table of two records, with event 401 (ordinary, class 9).
fn table() -> Table {
    Table::new(2, &[(401, 0x49)])
}

#[test]
fn words_both_ways() {
    let separators = [(14, 0)].repeat(24);
    let cases: [(Report, &[u64]); 6] = [
        (multi(FLT, 500, &[]), &[FIRST, 0x02_401F_4000]),
        (
            multi(FLT, 500, &[(3, 10), (0, 2)]),
            &[FIRST, 0x02_501F_4350, 0x02_0200_0000],
        ),
        (multi(FLT, 500, &[(0, 2)]), &[FIRST, 0x02_401F_4040]),
        (
            multi(FLT, 500, &separators),
            &[
                FIRST,
                0x02_701F_4EEE,
                0x02_2EEE_EEEE,
                0x02_1EEE_EEEE,
                0x02_0EEE_EEEE,
            ],
        ),
        (multi(FLT, 0xFC00, &[]), &[FIRST, 0x02_4FC0_0000]),
        (
            multi(0xFFFD, 0x3502, &[]),
            &[0x02_8991_FFFD, 0x02_4350_2000],
        ),
    ];
    for (report, words) in cases {
        assert_eq!(assembled(words), Answer::Report(report));
        assert_eq!(written(&report, 2), Ok(words.to_vec()));
    }
    let word = 0x0B_5065_FF41;
    assert_eq!(assembled(&[word]), Answer::Report(single()));
    assert_eq!(written(&single(), 0), Ok(vec![word]));
}

#[test]
fn what_a_writer_refuses() {
    let separators = [(14, 0)].repeat(25);
    let unfit = Err(Refusal::Unfit);
    assert_eq!(written(&multi(FLT, 500, &separators), 2), unfit);
    let home = written(&multi(500, 0, &separators), 2);
    assert_eq!(home.map(|words| words.len()), Ok(5));
    assert_eq!(written(&multi(500, 1, &[]), 2), unfit);
    let mut report = single();
    report.real_location = 1;
    assert_eq!(written(&report, 0), unfit);
    report.head.location = 500;
    assert_eq!(written(&report, 0), unfit);
    assert_eq!(written(&multi(FLT, 500, &[]), 0), unfit);
    let mut out = [0; 1];
    let small = multi(FLT, 500, &[]).write(2, &mut out);
    assert_eq!((small, out), (Err(Refusal::Buffer), [0]));
}

#[test]
fn a_data_unit_of_whole_messages() {
    let unit = Unit {
        short_id: 5,
        header: None,
    };
    let write = |words: &[u64]| unit.write(&[], words, &mut [0; drm::MOST_BYTES]);
    // Label 15 at home and refused, a real location of 0xFC00 abroad.
    assert!(write(&[FIRST, 0x02_4FC0_0000]).is_ok());
    assert_eq!(
        write(&[0x02_8991_01F4, 0x02_4FC0_0000]),
        Err(Refusal::Unfit)
    );
    // Label 10 with 8 bits left.
    assert_eq!(write(&[FIRST, 0x02_401F_4AFF]), Err(Refusal::Unfit));
}

#[test]
fn the_listing_prints_the_code() {
    let listing = listed(&[FIRST, 0x02_401F_4040]);
    assert_eq!(listing, "1 M 401 65345 0 1 0 2 1\n");
}

#[test]
fn the_record_and_its_home_neighbour() {
    let mut table = table();
    let foreign = multi(FLT, 500, &[(3, 10), (0, 2)]);
    assert_eq!(table.take(&foreign), stored(0, 0));
    let mut bytes = [0; RECORD];
    bytes[..18].copy_from_slice(&[
        0x01, 0x02, 0x03, 0x11, 0xF4, 0x01, 0x91, 0x01, 0x00, 0x01, 0x00, 0x02, 0xA0, 0x00, 0x00,
        0x00, 0x35, 0x02,
    ]);
    bytes[31..36].copy_from_slice(&[0x0D, 0x0D, 0x01, 0x00, 0x02]);
    assert_eq!(table.record(0), bytes);

    // The home report at 500 differs only in byte 33, and neither matches the other.
    let home = multi(500, 0, &[(3, 10), (0, 2)]);
    assert_eq!(table.take(&home), stored(0, 1));
    bytes[33] = 0x11;
    assert_eq!(table.record(1), bytes);
    assert_eq!(table.report(0), foreign);
    assert_eq!(table.report(1), home);
    assert_eq!(table.take(&foreign), stored(1, 0));
    assert_eq!(table.take(&home), stored(1, 1));

    // Another table's location of the same code matches neither.
    let other = multi(OTHER_FLT, 500, &[]);
    assert_eq!(table.take(&other), Err(Refusal::NoRoom));
}

#[test]
fn own_flt_code() {
    let mut table = table();
    let home = multi(500, 0, &[(3, 10), (0, 2)]);
    assert_eq!(table.take(&home), stored(0, 0));
    let bytes = table.record(0).to_vec();
    let own = multi(OWN_FLT, 500, &[(3, 10), (0, 2)]);
    assert_eq!(table.take(&own), stored(1, 0));
    assert_eq!(table.record(0), bytes);
    assert_eq!(table.report(0), home);
}

#[test]
fn groups_for_the_items_alone() {
    for (pairs, groups) in [
        (vec![], 2),
        (vec![(14, 0); 3], 2),
        (vec![(14, 0); 7], 2),
        (vec![(14, 0); 8], 3),
        (vec![(14, 0); 24], 5),
    ] {
        let mut table = table();
        let report = multi(FLT, 0, &pairs);
        assert_eq!(table.take(&report), stored(0, 0));
        assert_eq!(table.record(0)[1], groups);
        assert_eq!(table.report(0), report);
    }
}

#[test]
fn a_record_of_one_group_with_a_foreign_table() {
    let mut record = [0; RECORD];
    record[..12].copy_from_slice(&[1, 1, 3, 17, 0xF4, 1, 101, 0, 1, 2, 0, 3]);
    record[12] = 1;
    record[31..36].copy_from_slice(&[13, 13, 1, 0, 2]);
    let entry = read_record(&record).unwrap().unwrap();
    let report = Report {
        real_location: 500,
        ..single()
    };
    assert_eq!(entry.report, report);
    // At home a code of 0xFC00 or above reads as it stands, for several groups too.
    record[33] = 17;
    record[5] = 0xFF;
    for groups in [1, 2] {
        record[1] = groups;
        let report = read_record(&record).unwrap().unwrap().report;
        assert_eq!((report.head.location, report.real_location), (0xFFF4, 0));
    }
}

#[test]
fn refusals_in_order() {
    let foreign = Err(Refusal::Foreign);
    let mut table = table();
    assert_eq!(table.take(&multi(FLT, 0xFC00, &[])), foreign);
    assert_eq!(table.take(&multi(FLT, 0xFBFF, &[])), stored(0, 0));
    assert_eq!(table.take(&multi(OWN_FLT, 0xFFFF, &[])), foreign);
    // Unfit, minute, FLT code, unknown event.
    let mut report = single();
    assert_eq!(report.head.event, 101);
    assert_eq!(table.take(&report), foreign);
    assert_eq!(table.take_at(&report, MINUTE - 1), Err(Refusal::Minute));
    report.real_location = 1;
    assert_eq!(table.take_at(&report, MINUTE - 1), Err(Refusal::Unfit));
    report.real_location = 0;
    report.head.location = 500;
    assert_eq!(table.take(&report), Err(Refusal::UnknownEvent));
    let mut report = multi(FLT, 500, &[]);
    report.head.event = 101;
    assert_eq!(table.take(&report), Err(Refusal::UnknownEvent));
    report.real_location = 0xFC00;
    assert_eq!(table.take(&report), foreign);
    assert_eq!(table.take_at(&report, MINUTE - 1), Err(Refusal::Minute));
    let long = multi(FLT, 0xFC00, &[(14, 0)].repeat(25));
    assert_eq!(table.take_at(&long, MINUTE - 1), Err(Refusal::Unfit));
}
