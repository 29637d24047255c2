//! Takes into full tables: a record is dropped, or all are kept.

use proved::RECORD_BYTES as RECORD;
use proved::{TableAnswer, Taking, DROP, KEEP};

use crate::classes;
use crate::lists::Lists;
use crate::records::{self, expiry_of, service_of};
use crate::tables::LARGEST;
use crate::takes;
use crate::tally::Call;
use crate::Trial;

/// Numbers that say neither to drop nor to keep.
pub const NO_CHOICE: [u8; 6] = [2, 3, 127, 128, 254, 255];

/// A location's code that no record has.
const ELSEWHERE: u16 = 0x0200;

/// What a run must reach of a number that is no choice, by what the same call answers to keep.
const NO_CHOICE_MARKS: [(u8, &str); 5] = [
    (0, "take: 9 for no choice, else accepted"),
    (11, "take: 9 for no choice, else 11"),
    (12, "take: 9 for no choice, else 12"),
    (13, "take: 9 for no choice, else 13"),
    (14, "take: 9 for no choice, else 14"),
];

/// The expiry of each record of a full table.
fn expiries_of(table: &[u8]) -> Vec<u32> {
    let records = table.as_chunks::<RECORD>().0.iter();
    records.map(|record| expiry_of(record)).collect()
}

/// The places of the records of a full table that expire soonest, the lowest-numbered first.
pub fn soonest(table: &[u8]) -> Vec<usize> {
    let expiries = expiries_of(table);
    let smallest = expiries.iter().min();
    let places = 0..expiries.len();
    let soonest = places.filter(|&place| Some(&expiries[place]) == smallest);
    soonest.collect()
}

impl Trial {
    /// So many expiries, all after a minute: ties at any place, all the same, the smallest at the
    /// last place, a tie that is not at the first, all later than a report's own.
    fn expiries(&mut self, count: usize, minute: u32) -> Vec<u32> {
        let random = &mut self.random;
        let soon = minute + 1 + random.below(100) as u32;
        let near: Vec<_> = (0..count).map(|_| soon + random.below(4) as u32).collect();
        let mut later: Vec<_> = near.iter().map(|expiry| expiry + 20_000).collect();
        match random.below(6) {
            0 => near,
            1 => vec![random.pick(&[minute + 1, soon, soon + 20_000, u32::MAX]); count],
            2 => {
                later[count - 1] = soon;
                later
            }
            3 => {
                for _ in 0..4 {
                    let place = random.index(count);
                    if place > 0 {
                        later[place] = soon;
                    }
                }
                later
            }
            4 => later,
            _ => near.iter().map(|expiry| u32::MAX - expiry % 3).collect(),
        }
    }

    /// A full table of which nothing has expired at a minute, or now and then some records have.
    fn full(&mut self, minute: u32, lists: &Lists) -> Vec<u8> {
        let count = match self.random.below(40) {
            0 => 1024,
            1..9 => 1,
            _ => self.random.pick(&[2, 3, 4, 8, 33]),
        };
        let mut expiries = self.expiries(count, minute);
        if self.random.once_in(4) {
            for _ in 0..=self.random.below(2) {
                let expired = minute.saturating_sub(self.random.below(3) as u32);
                expiries[self.random.index(count)] = expired.max(1);
            }
        }
        let mut table = Vec::new();
        for expiry in expiries {
            let mut record = self.record(minute, lists);
            record[12..16].copy_from_slice(&expiry.to_le_bytes());
            table.extend(record);
        }
        table
    }

    /// One report into a full table, mostly one that no record matches, with each choice.
    pub fn full_table(&mut self, lists: &Lists) {
        let mut minute = self.minute().min(LARGEST);
        let clock = minute.saturating_sub(self.random.below(3) as u32);
        let mut table = self.full(minute, lists);
        let mut service = self.service();
        let mut report = self.arrival(lists);
        if self.random.once_in(4) {
            let record = self.random.pick(table.as_chunks::<RECORD>().0);
            service = service_of(&record);
            report = self.alike(report, &record, lists);
        } else {
            takes::locate(&mut report, ELSEWHERE);
            let kinds: &[u16] = self.random.pick(&[&[1], &[1], &[1], &[0, 2, 3]]);
            report.head.event = self.event(lists, kinds);
        }
        match self.random.below(32) {
            0 => takes::locate(&mut report, sender::flt_code(0, 0)),
            1 => minute = LARGEST + 1,
            2 => minute = clock.saturating_sub(1),
            3 => self.malform(&mut table),
            _ => {}
        }
        let taking = Taking {
            catalogue: &lists.catalogue,
            lives: &lists.lives,
            report,
            service,
            minute,
            lto: self.random.lto(),
            when_full: DROP,
        };
        self.take_with_each(&(table, clock), &taking);
    }

    /// The same take with each choice and with a number that is none. The choice decides only
    /// whether a record is dropped or the report refused.
    fn take_with_each(&mut self, entry: &(Vec<u8>, u32), taking: &Taking) {
        let no_choice = self.random.pick(&NO_CHOICE);
        let [default, keep, none] = [DROP, KEEP, no_choice].map(|when_full| {
            let (mut table, mut clock) = entry.clone();
            let taking = Taking {
                when_full,
                ..*taking
            };
            let answer = self.take_with(&mut table, &mut clock, &taking);
            (answer, table, clock)
        });
        let (answer, refused) = (keep.0, none.0.refusal);
        let input = (entry, taking);
        let meant = match default.0.dropped {
            0 => default,
            _ => {
                let full = TableAnswer {
                    refusal: 14,
                    ..TableAnswer::default()
                };
                (full, entry.0.clone(), entry.1)
            }
        };
        self.tally.expect(Call::TableTake, &input, keep, meant);
        for (refusal, mark) in NO_CHOICE_MARKS {
            let happened = answer.refusal == refusal && refused == 9;
            self.tally.mark(mark, happened);
        }
        self.tally.mark("take: 10 before no choice", refused == 10);
    }

    /// Marks of takes that found no record free at entry and dropped none.
    pub fn mark_full(&mut self, before: &[u8], taking: &Taking, answer: &TableAnswer) {
        let full = records::used(before).count() == before.len() / RECORD;
        let default = full && taking.when_full == DROP;
        let none_dropped = default && answer.refusal == 0 && answer.dropped == 0;
        let stored = none_dropped && answer.stored == 1;
        let none_freed = none_dropped && answer.expired == 0 && answer.matched == 0;
        let kind = classes::kind(taking.catalogue, taking.report.head.event);
        let unknown = full && answer.refusal == 11;
        let tally = &mut self.tally;
        tally.mark(
            "take: full, one matched, none dropped",
            stored && answer.expired == 0 && answer.matched == 1,
        );
        tally.mark(
            "take: full, one expired, none dropped",
            stored && answer.expired == 1 && answer.matched == 0,
        );
        tally.mark(
            "take: full, a cancelling report drops none",
            none_freed && kind == Some(2),
        );
        tally.mark(
            "take: full, a null report drops none",
            none_freed && kind == Some(3),
        );
        tally.mark("take: full, 11 where it would drop", unknown && default);
        tally.mark(
            "take: full, 11 where it would keep",
            unknown && taking.when_full == KEEP,
        );
        tally.mark("take: kept with 14", answer.refusal == 14);
    }

    /// Marks of takes that dropped a record.
    pub fn mark_dropped(&mut self, before: &[u8], after: &[u8], answer: &TableAnswer) {
        let soonest = soonest(before);
        let tie = soonest.len() > 1;
        let (before, after) = (expiries_of(before), expiries_of(after));
        let (place, records) = (answer.place, before.len());
        let (old, new) = (before.get(place), after.get(place));
        let tally = &mut self.tally;
        let mut mark = |mark, such: bool| tally.mark(mark, answer.dropped == 1 && such);
        mark("take: dropped on a tie", tie);
        mark(
            "take: dropped on a tie, not the first record",
            tie && place > 0,
        );
        mark(
            "take: dropped, all expire at once",
            tie && soonest.len() == records,
        );
        mark(
            "take: dropped, the last of several records",
            place > 0 && place == records - 1,
        );
        mark("take: dropped, the only record", records == 1);
        mark("take: dropped, one of 1,024 records", records == 1024);
        mark(
            "take: dropped, an expiry of 0xFFFFFFFF",
            old == Some(&u32::MAX),
        );
        mark("take: dropped, the new one ends sooner than all", new < old);
    }
}
