//! Calls on tables of several sizes.

use std::hint::black_box;

use proved::RECORD_BYTES as RECORD;
use proved::{Renewal, Report, Service, TableAnswer, TableReading, Taking, DROP, KEEP};

use crate::input::{multi_at, multi_event_at, single_at, ADDITIONAL_EVENTS};
use crate::timing::{least, measure, print_limit, Times};

/// Calls in one measurement.
const CALLS: usize = 20;
const SCANS: usize = 200;
const EVENTS: usize = 2048;
const LIVES: usize = 16;
const START: u32 = 10_000;

const SERVICE: Service = Service {
    country: 13,
    ltn: 17,
    sid: 3,
};

/// Event 101 is ordinary, 102 cancels it, 103 is null, the additional ones are ordinary and of
/// classes of their own, the others are unknown.
fn catalogue() -> [u16; EVENTS] {
    let mut catalogue = [0; EVENTS];
    catalogue[101] = 1 << 6 | 5;
    catalogue[102] = 2 << 6 | 5;
    catalogue[103] = 3 << 6;
    for (event, class) in ADDITIONAL_EVENTS.zip(6..) {
        catalogue[usize::from(event)] = 1 << 6 | class;
    }
    catalogue
}

/// The catalogue with class 63 - c in place of class c.
fn changed(mut catalogue: [u16; EVENTS]) -> [u16; EVENTS] {
    for entry in catalogue.iter_mut().filter(|entry| **entry & 63 != 0) {
        *entry ^= 63;
    }
    catalogue
}

type ReportAt = fn(u16) -> Report;
type Take = fn(&mut [u8], &mut u32, &Taking) -> TableAnswer;
type Expire = fn(&mut [u8], &mut u32, u32) -> TableAnswer;
type Renew = fn(&mut [u8], &[u16]) -> Renewal;
type Read = fn(&[u8], usize) -> TableReading;
type ReadAlone = fn(&[u8]) -> TableReading;

/// A table with what stands beside it.
#[derive(Clone)]
struct Table {
    bytes: Vec<u8>,
    clock: u32,
    catalogue: [u16; EVENTS],
    lives: [u16; LIVES],
    when_full: u8,
    /// Takes so far.
    taken: usize,
}

impl Table {
    /// A table of so many records, with the life of every report.
    fn new(records: usize, life: u16) -> Self {
        Self {
            bytes: vec![0; RECORD * records],
            clock: START,
            catalogue: catalogue(),
            lives: [life; LIVES],
            when_full: DROP,
            taken: 0,
        }
    }

    /// A full table: each minute a report of a location of its own was stored.
    fn full(records: usize, life: u16) -> Self {
        let mut table = Self::new(records, life);
        for minute in START..START + records as u32 {
            let location = minute - START;
            let answer = table.take(calls::table_take, single_at(location as u16), minute);
            assert_eq!((answer.refusal, answer.stored), (0, 1));
        }
        table
    }

    fn records(&self) -> usize {
        self.bytes.len() / RECORD
    }

    fn take(&mut self, take: Take, report: Report, minute: u32) -> TableAnswer {
        let taking = Taking {
            catalogue: &self.catalogue,
            lives: &self.lives,
            report: black_box(report),
            service: SERVICE,
            minute,
            lto: 2,
            when_full: self.when_full,
        };
        self.taken += 1;
        take(&mut self.bytes, &mut self.clock, &taking)
    }

    /// Stores so many reports.
    fn store(&mut self, count: usize, report_at: ReportAt) {
        for location in 0..count {
            let answer = self.take(calls::table_take, report_at(location as u16), START);
            assert_eq!((answer.refusal, answer.stored), (0, 1));
        }
    }

    /// Fills the table but for one record.
    fn fill(&mut self, report_at: ReportAt) {
        self.store(self.records() - 1, report_at);
    }
}

/// Times calls on a table of each side, which must be equal in the end.
fn measure_on(table: Table, call: impl Fn(&mut Table, Take)) -> Times {
    let (mut ours, mut second) = (table.clone(), table);
    let run = |table: &mut Table, take: Take| {
        let take = black_box(take);
        for _ in 0..CALLS {
            call(table, take);
        }
    };
    let take_ours = || run(&mut ours, proved::table_take);
    let take_second = || run(&mut second, calls::table_take);
    let times = measure(take_ours, take_second);
    assert_eq!((ours.bytes, ours.clock), (second.bytes, second.clock));
    times
}

/// Takes into a table with one free record, each matching one record.
fn take(what: &str, records: usize, stored_at: ReportAt, report_at: ReportAt) -> Times {
    let mut table = Table::new(records, 60);
    table.fill(stored_at);
    let times = measure_on(table, |table, take| {
        let location = table.taken % (table.records() - 1);
        let answer = table.take(take, report_at(location as u16), START);
        assert_eq!((answer.refusal, answer.matched), (0, 1));
    });
    times.print(&format!("{what} at {records} records"), CALLS);
    times
}

/// Takes of which half meet an expired record, and the others are of all kinds: cancelling, null,
/// unfit, of an FLT code, unknown, without room where all records are kept.
fn take_rough(records: usize) {
    let mut table = Table::full(records, records as u16);
    table.when_full = KEEP;
    let times = measure_on(table, |table, take| {
        let i = table.taken;
        let mut report = match i % 4 {
            1 => multi_at(i as u16 & 0x7FFF, 1 + i % 7),
            _ => single_at(i as u16 & 0x7FFF),
        };
        let mut minute = table.clock;
        match i % 20 {
            0 | 2 | 4 | 6 | 8 | 10 | 12 | 14 | 16 | 18 => minute += 1,
            1 | 11 => report.head.event = 102,
            3 => report.head.event = 103,
            5 => report.head.event = 104,
            7 => report.head.location |= 0xFC00,
            9 => report.duration += 8,
            13 => minute -= 1,
            _ => {}
        }
        black_box(table.take(take, report, minute));
    });
    let what = format!("take at {records} records, with expiries and refusals");
    times.print(&what, CALLS);
}

/// Takes into a full table, one each minute, of a location that no record has. Each drops the
/// record that expires soonest, long before its minute, and stores the one that expires last, so
/// that the table stays full and its expiries a row of minutes.
fn take_full(records: usize) {
    let table = Table::full(records, 2 * records as u16);
    let times = measure_on(table, |table, take| {
        let i = table.taken;
        let answer = table.take(take, single_at(i as u16 & 0x7FFF), table.clock + 1);
        let dropped = TableAnswer {
            place: i % table.records(),
            stored: 1,
            dropped: 1,
            ..TableAnswer::default()
        };
        assert_eq!(answer, dropped);
    });
    times.print(
        &format!("take into a full table of {records} records"),
        CALLS,
    );
}

/// Expiry at a minute before that of every record, so that the table stays as it is.
fn expire(records: usize) {
    let mut table = Table::new(records, 60);
    table.fill(single_at);
    let (mut ours, mut second) = (table.clone(), table);
    let run = |table: &mut Table, expire: Expire| {
        let expire = black_box(expire);
        for _ in 0..CALLS {
            let answer = expire(&mut table.bytes, &mut table.clock, black_box(START));
            assert_eq!((answer.refusal, answer.expired), (0, 0));
        }
    };
    let expire_ours = || run(&mut ours, proved::table_expire);
    let expire_second = || run(&mut second, calls::table_expire);
    measure(expire_ours, expire_second).print(&format!("expire at {records} records"), CALLS);
}

/// Renewals of a full table with two catalogues in turn, by each of which every set changes.
fn renew(what: &str, records: usize, report_at: ReportAt) {
    let mut table = Table::new(records, 60);
    table.store(records, report_at);
    let catalogues = [changed(table.catalogue), table.catalogue];
    let run = |bytes: &mut [u8], renew: Renew| {
        let renew = black_box(renew);
        for i in 0..CALLS {
            let answer = renew(bytes, black_box(&catalogues[i % 2]));
            assert_eq!((answer.refusal, answer.used), (0, records));
        }
    };
    let (mut ours, mut second) = (table.bytes.clone(), table.bytes.clone());
    let renew_ours = || run(&mut ours, proved::table_renew);
    let renew_second = || run(&mut second, calls::table_renew);
    let times = measure(renew_ours, renew_second);
    assert!(ours == table.bytes && second == table.bytes);
    let renewal = proved::table_renew(&mut ours, &catalogues[0]);
    let mut renewed = ours.chunks(RECORD).zip(table.bytes.chunks(RECORD));
    assert!(renewal.refusal == 0 && renewed.all(|(after, before)| after != before));
    times.print(&format!("renewal of {records} {what}"), CALLS);
}

/// Reads a multi-group record and a single-group one in turn.
fn read(records: usize) {
    let mut table = Table::new(records, 60);
    table.fill(single_at);
    let place = records / 2;
    table.take(calls::table_take, multi_at(place as u16, 7), START);
    let run = |read: Read| {
        let read = black_box(read);
        for i in 0..CALLS {
            let answer = read(&table.bytes, black_box(place + i % 2));
            assert_eq!(answer.used, 1);
            black_box(answer);
        }
    };
    let times = measure(|| run(proved::table_read), || run(calls::table_read));
    times.print(&format!("record read at {records} records"), CALLS);
}

/// Reads the bytes of a multi-group record and of a single-group one in turn.
fn read_alone() {
    let mut table = Table::new(2, 60);
    table.fill(single_at);
    table.take(calls::table_take, multi_at(1, 7), START);
    let run = |read: ReadAlone| {
        let read = black_box(read);
        for i in 0..CALLS {
            let record = &table.bytes[RECORD * (i % 2)..][..RECORD];
            let answer = read(black_box(record));
            assert_eq!(answer.used, 1);
            black_box(answer);
        }
    };
    let times = measure(|| run(proved::record_read), || run(calls::record_read));
    times.print("record read alone", CALLS);
}

/// A plain scan: every eight bytes are read once.
pub fn scan(bytes: &[u8]) -> u64 {
    let (eights, rest) = bytes.as_chunks::<8>();
    let sum = eights
        .iter()
        .fold(0, |sum, eight| sum ^ u64::from_ne_bytes(*eight));
    rest.iter().fold(sum, |sum, &byte| sum ^ u64::from(byte))
}

/// All calls on tables.
pub fn bench() {
    let sizes = [64, 256, 1024];
    let [_, small, large] = sizes.map(|records| take("take", records, single_at, single_at));
    println!(
        "a take's growth from 256 to 1024 records: ours {:.2}, second {:.2}",
        large.ours.as_secs_f64() / small.ours.as_secs_f64(),
        large.second.as_secs_f64() / small.second.as_secs_f64()
    );
    let most = 1024;
    let multi_group_at: ReportAt = |location| multi_at(location, 7);
    take("multi-group take", most, single_at, multi_group_at);
    take(
        "multi-event take among multi-event reports",
        most,
        multi_event_at,
        multi_event_at,
    );
    take_rough(most);
    take_full(most);
    expire(most);
    renew("single-group reports", most, single_at);
    renew("multi-event reports", most, multi_event_at);
    read(most);
    read_alone();
    for records in sizes {
        let mut table = Table::new(records, 60);
        table.fill(single_at);
        let time = least(SCANS, || {
            for _ in 0..CALLS {
                black_box(scan(black_box(&table.bytes)));
            }
        });
        let what = format!("a scan of the bytes of {records} records");
        print_limit(&what, time, CALLS);
    }
}
