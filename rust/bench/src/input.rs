//! What both sides are given: friendly input, and input with refusals and losses.

use std::ops::Range;

use proved::{DrmUnit, Fig, Head, Item, RdsGroup, Report};
use second::recording::{self, Frame};
use sender::blocks::{self, SentFig, MARKER};
use sender::random::Random;
use sender::{Break, FIG_WORDS};

/// The most words of a message.
pub const MESSAGE_WORDS: usize = 5;
/// The most words of any FIG, those of 16 bits included.
pub const FIG_SYSTEM_WORDS: usize = 14;
/// Bytes of a block.
const FIB_BYTES: usize = 32;
/// The words of the two FIGs of a block.
const FIB_FIGS: [usize; 2] = [3, 2];
/// The most bytes and words of a data unit.
pub const UNIT_BYTES: usize = 128;
pub const UNIT_WORDS: usize = 27;
pub const GROUP_BYTES: usize = 8;

/// The code of a foreign location table: country 13, number 1.
const FLT_CODE: u16 = 0xFF41;

/// The additional events of multi-event reports.
pub const ADDITIONAL_EVENTS: Range<u16> = 201..231;

/// Of the rough input one piece in so many is lost, and as many are refused.
const ROUGH: usize = 5;
/// Of the random input.
const SEED: u64 = 14819;

/// A single-group report.
pub fn single_at(location: u16) -> Report {
    Report {
        head: Head {
            direction: 1,
            extent: 2,
            event: 101,
            location,
        },
        duration: 3,
        ..Report::default()
    }
}

/// A multi-group report of these items.
fn multi_of(location: u16, items: impl ExactSizeIterator<Item = Item>) -> Report {
    let mut report = Report {
        form: 1,
        duration: 0,
        item_count: items.len(),
        ..single_at(location)
    };
    for (place, item) in report.items.iter_mut().zip(items) {
        *place = item;
    }
    report
}

/// A multi-group report of one to seven items, which take two to five groups.
pub fn multi_at(location: u16, count: usize) -> Report {
    const LABELS: [u16; 7] = [6, 9, 3, 10, 4, 5, 2];
    let value = 1 + location % 30;
    let item = |&label| Item { label, value };
    multi_of(location, LABELS[..count].iter().map(item))
}

/// A multi-event report: one additional event in two groups or two in three.
pub fn multi_event_at(location: u16) -> Report {
    let additional = |event| Item {
        label: 9,
        value: ADDITIONAL_EVENTS.start + event % ADDITIONAL_EVENTS.len() as u16,
    };
    let supplementary = Item { label: 6, value: 1 };
    let items = [
        additional(location),
        supplementary,
        additional(location / 2),
    ];
    let count = 2 + usize::from(location % 2);
    multi_of(location, items.into_iter().take(count))
}

/// Report `i` of several multi-group ones, with its continuity index.
fn multi(i: u16) -> (Report, u8) {
    (multi_at(i, 1 + usize::from(i) % 7), 1 + (i % 6) as u8)
}

/// Multi-group reports with their continuity indices.
pub fn multi_reports(count: u16) -> Vec<(Report, u8)> {
    (0..count).map(multi).collect()
}

/// The same reports as INTER-ROAD ones.
pub fn inter_road_reports(count: u16) -> Vec<(Report, u8)> {
    let abroad = |(mut report, ci): (Report, u8)| {
        report.real_location = report.head.location;
        report.head.location = FLT_CODE;
        (report, ci)
    };
    (0..count).map(multi).map(abroad).collect()
}

/// Reports with their continuity indices: two multi-group ones to a single one.
pub fn reports(count: u16) -> Vec<(Report, u8)> {
    let report = |i: u16| match i % 3 {
        0 => (single_at(i), 0),
        _ => multi(i),
    };
    (0..count).map(report).collect()
}

/// The words of reports.
pub fn words(reports: &[(Report, u8)]) -> Vec<u64> {
    let mut words = Vec::new();
    for &(report, ci) in reports {
        let mut out = [0; MESSAGE_WORDS];
        let written = calls::report_write(report, ci, &mut out);
        assert_eq!(written.refusal, 0);
        words.extend(&out[..written.count]);
    }
    words
}

/// The words with losses, and in place of some tuning words and words of continuity index 7.
pub fn rough_words(words: &[u64]) -> Vec<u64> {
    let rough = |(i, &word): (usize, &u64)| match i % (2 * ROUGH) {
        0 | 3 => None,
        5 => Some(word | 1 << 36),
        7 => Some(7 << 32 | word & 0xFFFF_FFFF),
        _ => Some(word),
    };
    words.iter().enumerate().filter_map(rough).collect()
}

/// The words of reports, in place of one in four a message whose content is refused at any place.
pub fn broken_words(reports: &[(Report, u8)]) -> Vec<u64> {
    let random = &mut Random::new(SEED);
    let mut broken = Vec::new();
    for (i, report) in reports.iter().enumerate() {
        broken.extend(match i % 4 {
            0 => Break::of_message(random).words(random),
            _ => words(&[*report]),
        });
    }
    broken
}

pub fn group_of(word: u64) -> RdsGroup {
    RdsGroup {
        pi: 0x5201,
        tp: 0,
        pty: 9,
        word,
    }
}

pub fn groups(words: &[u64]) -> Vec<Vec<u8>> {
    let group = |&word: &u64| {
        let mut out = vec![0; GROUP_BYTES];
        assert_eq!(calls::rds_write(group_of(word), &mut out), 0);
        out
    };
    words.iter().map(group).collect()
}

const FIG: Fig = Fig { d1: 0, tcid: 1 };

pub fn figs(words: &[u64]) -> Vec<Vec<u8>> {
    let fig = |words: &[u64]| sender::fig(FIG, words);
    words.chunks_exact(FIG_WORDS).map(fig).collect()
}

/// Blocks of two FIGs, with as many words as fit.
pub fn fibs(words: &[u64]) -> Vec<Vec<u8>> {
    let [first, second] = FIB_FIGS;
    let fib = |words: &[u64]| {
        let figs = [&words[..first], &words[first..]].map(|words| SentFig::words(FIG, words));
        blocks::block(&figs, &[MARKER])
    };
    words.chunks_exact(first + second).map(fib).collect()
}

pub const UNIT: DrmUnit = DrmUnit {
    tmchi: 0,
    short_id: 5,
    services: 0,
    country: 0,
    ecc: 0,
    lto: 0,
    system_count: 0,
    system_words: [0; 3],
};

/// As many words as a unit carries, of single-group messages.
pub fn unit_words(count: u16) -> Vec<Vec<u64>> {
    let words = |i: u16| {
        let reports: Vec<_> = (0..UNIT_WORDS as u16)
            .map(|j| (single_at(i + j), 0))
            .collect();
        words(&reports)
    };
    (0..count).map(words).collect()
}

pub fn units(words: &[Vec<u64>]) -> Vec<Vec<u8>> {
    let unit = |words: &Vec<u64>| {
        let mut out = vec![0; UNIT_BYTES];
        let written = calls::drm_write(UNIT, words, &mut out);
        assert_eq!(written.refusal, 0);
        out.truncate(written.count);
        out
    };
    words.iter().map(unit).collect()
}

/// Bodies of which some are lost and some have a fault, each of these in turn.
pub fn rough(bodies: &[Vec<u8>], faults: &[fn(&mut Vec<u8>)]) -> Vec<Vec<u8>> {
    let mut fault = faults.iter().cycle();
    let mut rough = Vec::new();
    for (i, body) in bodies.iter().enumerate() {
        let mut body = body.clone();
        match i % ROUGH {
            0 => continue,
            2 => fault.next().into_iter().for_each(|fault| fault(&mut body)),
            _ => {}
        }
        rough.push(body);
    }
    rough
}

/// A group cut short, and one of another type.
pub const GROUP_FAULTS: [fn(&mut Vec<u8>); 2] = [
    |group| group.truncate(GROUP_BYTES - 1),
    |group| group[2] ^= 0x10,
];

/// Another type, another count, another extension, a reserved bit, padding.
pub const FIG_FAULTS: [fn(&mut Vec<u8>); 5] = [
    |fig| fig[0] ^= 0x20,
    |fig| fig[0] ^= 1,
    |fig| fig[1] ^= 2,
    |fig| fig[1] ^= 0x40,
    |fig| *fig.last_mut().expect("a byte") ^= 1,
];

/// Turns bits of a byte of a block's data field, and makes its check word anew.
fn turn(fib: &mut [u8], at: usize, bits: u8) {
    fib[at] ^= bits;
    let (data, check) = fib.split_at_mut(FIB_BYTES - 2);
    check.copy_from_slice(&calls::check_word(data).to_be_bytes());
}

/// A bit of a word, a byte too few, a second FIG that runs past or has a reserved bit.
pub const FIB_FAULTS: [fn(&mut Vec<u8>); 4] = [
    |fib| fib[4] ^= 8,
    |fib| fib.truncate(FIB_BYTES - 1),
    |fib| turn(fib, 16, 0x14),
    |fib| turn(fib, 17, 0x40),
];

/// A bit of the last word or of the check word, or a byte too few.
pub const UNIT_FAULTS: [fn(&mut Vec<u8>); 3] = [
    |unit| unit[UNIT_BYTES - 4] ^= 8,
    |unit| unit[UNIT_BYTES - 1] ^= 1,
    |unit| unit.truncate(UNIT_BYTES - 1),
];

/// A recording of these bodies of the three kinds, each group twice, all of it several times.
pub fn recording(groups: &[Vec<u8>], figs: &[Vec<u8>], units: &[Vec<u8>]) -> Vec<u8> {
    let mut out = Vec::new();
    let mut add = |kind, body: &[u8]| {
        let written = Frame { kind, body }.write(&mut out);
        written.expect("a fit frame");
    };
    for _ in 0..12 {
        for group in groups {
            add(recording::RDS, group);
            add(recording::RDS, group);
        }
        for fig in figs {
            add(recording::FIG, fig);
        }
        for unit in units {
            add(recording::DRM, unit);
        }
    }
    out
}
