//! The worked cases of R-8: refusals 7 and 8 say at which bit the content broke, the others do not.

#![deny(warnings)]

use second::assembler::Answer;
use second::table::{read, read_record, renew, EVENTS, RECORD};
use second::Refusal;
use words::{assembled, listed};

#[path = "common/words.rs"]
mod words;

/// First groups: at home, and INTER-ROAD.
const FIRST: u64 = 0x02_8991_01F4;
const FOREIGN: u64 = 0x02_8991_FF41;

const fn content(at: u8) -> Refusal {
    Refusal::Content { at }
}

const fn label_15(at: u8) -> Refusal {
    Refusal::Label15 { at }
}

/// Messages whose content is refused.
const MESSAGES: [(&[u64], Refusal); 9] = [
    // Label 10 after six separators, and no bits for its value.
    (&[FIRST, 0x02_4EEE_EEEA], content(24)),
    // Three items, and then the bits 001.
    (&[FIRST, 0x02_4201_8041], content(25)),
    (&[FIRST, 0x02_4FFF_FFFF], label_15(0)),
    // Nine separators before label 15.
    (&[FIRST, 0x02_5EEE_EEEE, 0x02_0EEF_0000], label_15(36)),
    // Label 13 with 13 bits for its value, after an item that stands in two groups.
    (&[FIRST, 0x02_5EEE_EEE9, 0x02_0001_A000], content(39)),
    // The last bit of all, after 26 separators and a duration of 0.
    (
        &[
            FIRST,
            0x02_7EEE_EEEE,
            0x02_2EEE_EEEE,
            0x02_1EEE_EEEE,
            0x02_0EEE_EE01,
        ],
        content(111),
    ),
    // The first item after the real location: label 10 with 8 bits for its value, label 15.
    (&[FOREIGN, 0x02_401F_4AFF], content(16)),
    (&[FOREIGN, 0x02_401F_4FFF], label_15(16)),
    // A real location of ones and a separator before label 15.
    (&[FOREIGN, 0x02_4FFF_FEF0], label_15(20)),
];

/// Words that are refused alone.
const ALONE: [(u64, Refusal); 2] = [
    (0x02_4350_2000, Refusal::OutOfTurn),
    (0x07_0000_0000, Refusal::Index7),
];

/// 26 separators, a duration of 0, and a bit.
const LAST_BIT: [u8; 14] = {
    let mut bytes = [0xEE; 14];
    bytes[13] = 0x01;
    bytes
};

/// A record of these groups and content, of a location at home or abroad.
fn record(groups: u8, content: &[u8], location_ltn: u8) -> [u8; RECORD] {
    let mut record = [0; RECORD];
    record[..13].copy_from_slice(&[1, groups, 3, 17, 0xF4, 1, 0x91, 1, 0, 1, 0, 0, 160]);
    record[16..][..content.len()].copy_from_slice(content);
    record[31..36].copy_from_slice(&[13, 13, location_ltn, 0, 2]);
    record
}

#[test]
fn messages() {
    for (words, refusal) in MESSAGES {
        assert_eq!(assembled(words), Answer::Refused(refusal));
    }
    for (word, refusal) in ALONE {
        assert_eq!(assembled(&[word]), Answer::Refused(refusal));
        assert_eq!(refusal.broken_at(), None);
    }
}

#[test]
fn the_third_number_of_a_line() {
    for (words, refusal) in MESSAGES {
        let at = refusal.broken_at().unwrap();
        let line = format!("! {} {} {at}\n", 2 * words.len(), refusal.number());
        assert_eq!(listed(words), line);
    }
    assert_eq!(listed(MESSAGES[2].0), "! 4 8 0\n");
    for (word, refusal) in ALONE {
        assert_eq!(listed(&[word]), format!("! 2 {}\n", refusal.number()));
    }
}

#[test]
fn records() {
    let cases: [(u8, &[u8], Refusal); 5] = [
        (2, &[0xEE, 0xEE, 0xEE, 0xA0], content(24)),
        (2, &[0x20, 0x18, 0x04, 0x10], content(25)),
        (2, &[0xF0], label_15(0)),
        (3, &[0xEE, 0xEE, 0xEE, 0xEE, 0xEF], label_15(36)),
        (5, &LAST_BIT, content(111)),
    ];
    for (groups, bytes, refusal) in cases {
        for ltn in [17, 1] {
            let mut record = record(groups, bytes, ltn);
            assert_eq!(read_record(&record), Err(refusal));
            let mut table = [[0; RECORD], record].concat();
            assert_eq!(read(&table, 1), Err(refusal));
            // The others have no place: a record past the last, a renewal, a malformed record.
            assert_eq!(read(&table, 2), Err(Refusal::Unfit));
            let mut catalogue = [0; EVENTS];
            catalogue[401] = 0x49;
            let renewed = renew(&mut table, &catalogue);
            assert_eq!(renewed, Err(Refusal::Malformed));
            record[30] = 1;
            assert_eq!(read_record(&record), Err(Refusal::Malformed));
        }
    }
}
