//! Renewals: the classes of every record, worked out anew.

use proved::{Renewal, RECORD_BYTES as RECORD};

use crate::classes::{self, Classes, Set, STORED};
use crate::faults::{self, Fault, Faults};
use crate::lists::Lists;
use crate::records;
use crate::tally::Call;
use crate::Trial;

/// What a run must reach of renewals that are refused for records alone.
const EARLIER_MARKS: [(Fault, &str); 3] = [
    (
        Fault::EmptySet,
        "renew: 10 for an empty set, an earlier set would have changed",
    ),
    (
        Fault::Content,
        "renew: 10 for content that does not read, an earlier set would have changed",
    ),
    (
        Fault::Event,
        "renew: 10 for a first event without a class, an earlier set would have changed",
    ),
];

/// The faults for which a renewal is refused.
fn faults(table: &[u8], catalogue: &[u16]) -> Faults {
    let mut faults = faults::of_table(table);
    faults.extend(faults::of_catalogue(catalogue));
    for record in records::used(table) {
        faults.extend(faults::of_events(record, catalogue));
    }
    faults
}

/// The set that a catalogue gives a used record whose content reads as items.
fn given(record: &[u8], catalogue: &[u16]) -> Option<Set> {
    let classes = Classes::of_record(catalogue, record)?;
    Some(classes.set())
}

/// What an accepted renewal leaves: nothing but the sets of used records is worked out anew.
fn renewed(table: &[u8], catalogue: &[u16]) -> Vec<u8> {
    let mut table = table.to_vec();
    for record in table.as_chunks_mut::<RECORD>().0 {
        if record[0] == 1 {
            let set = given(record, catalogue).unwrap_or_default();
            record[STORED].copy_from_slice(&classes::bytes(&set));
        }
    }
    table
}

/// Whether a set would have changed before the first record at fault.
fn changed_before_fault(table: &[u8], catalogue: &[u16]) -> bool {
    let sound = |record: &&[u8; RECORD]| {
        let faults = faults::of_record(&record[..]);
        faults.is_empty() && faults::of_events(&record[..], catalogue).is_empty()
    };
    let mut earlier = table.as_chunks().0.iter().take_while(sound);
    earlier
        .any(|record| record[0] == 1 && given(record, catalogue) != Some(classes::stored(record)))
}

impl Trial {
    /// A renewal with this catalogue.
    fn renew_with(&mut self, table: &mut Vec<u8>, catalogue: &[u16]) -> Renewal {
        let entry = table.clone();
        let (mut a, mut b) = (entry.clone(), entry.clone());
        let proved = proved::table_renew(&mut a, catalogue);
        let second = calls::table_renew(&mut b, catalogue);
        let input = (&entry, catalogue);
        self.tally
            .agree_lent(Call::TableRenew, &input, &entry, (proved, &a), (second, &b));
        let faults = faults(&entry, catalogue);
        self.tally
            .expect_faults(Call::TableRenew, &input, proved.refusal, &faults);
        if faults.is_empty() {
            let meant = Renewal {
                used: records::used(&entry).count(),
                refusal: 0,
            };
            let left = renewed(&entry, catalogue);
            self.tally
                .expect(Call::TableRenew, &input, (proved, &a), (meant, &left));
            self.mark_changes(&entry, &a);
        }
        for (fault, mark) in EARLIER_MARKS {
            let alone = faults.iter().eq([&fault]);
            let happened = alone && changed_before_fault(&entry, catalogue);
            self.tally.mark(mark, happened);
        }
        *table = a;
        proved
    }

    /// Marks what an accepted renewal changed.
    fn mark_changes(&mut self, before: &[u8], after: &[u8]) {
        let sets = |table| records::used(table).map(|record| classes::stored(record));
        let sets: Vec<_> = sets(before).zip(sets(after)).collect();
        let changed = sets.iter().filter(|(before, after)| before != after);
        let (used, changed) = (sets.len(), changed.count());
        let tally = &mut self.tally;
        tally.mark("renew: no record used", used == 0);
        tally.mark("renew: no set changed", used > 0 && changed == 0);
        tally.mark("renew: some sets changed", 0 < changed && changed < used);
        tally.mark(
            "renew: several sets changed, all",
            1 < changed && changed == used,
        );
        let mut some = |mark, such: fn(&Set, &Set) -> bool| {
            let mut sets = sets.iter();
            tally.mark(mark, sets.any(|(before, after)| such(before, after)));
        };
        some("renew: a class more, none less", |before, after| {
            before.len() < after.len() && before.is_subset(after)
        });
        some("renew: a class less, none more", |before, after| {
            after.len() < before.len() && after.is_subset(before)
        });
        some("renew: class 63 comes", |before, after| {
            !before.contains(&63) && after.contains(&63)
        });
        some("renew: class 63 goes", |before, after| {
            before.contains(&63) && !after.contains(&63)
        });
    }

    /// A renewal with the lists' catalogue, a changed one or one that is often malformed. After it
    /// the lists may have that catalogue.
    pub fn renew(&mut self, table: &mut Vec<u8>, lists: &mut Lists) {
        let catalogue = match self.random.below(4) {
            0 => lists.catalogue.clone(),
            1 => self.damaged(lists).catalogue,
            _ => self.changed(&lists.catalogue, table),
        };
        let renewal = self.renew_with(table, &catalogue);
        if renewal.refusal == 0 && self.random.once_in(2) {
            lists.catalogue = catalogue;
        }
    }

    /// Calls on a table that was all free, with one catalogue until a renewal brings in another.
    /// At any moment a renewal with that catalogue changes nothing.
    pub fn table_run(&mut self, lists: &Lists) {
        let mut lists = lists.clone();
        let mut clock = self.random.below(10_000) as u32;
        let mut table = vec![0; RECORD * self.random.pick(&[1, 2, 4, 8, 16])];
        let mut another = false;
        for _ in 0..12 {
            match self.random.below(8) {
                0 => self.expire(&mut table, &mut clock),
                1 => {
                    let changed = self.changed(&lists.catalogue, &table);
                    if self.renew_with(&mut table, &changed).refusal == 0 {
                        lists.catalogue = changed;
                        another = true;
                    }
                }
                _ => self.take(&mut table, &mut clock, &lists, &lists),
            }
            if self.random.once_in(3) {
                self.renew_again(&mut table, &lists.catalogue, another);
            }
        }
    }

    /// A renewal that must change nothing, in a run with this catalogue alone or after another.
    fn renew_again(&mut self, table: &mut Vec<u8>, catalogue: &[u16], another: bool) {
        let before = table.clone();
        let used = records::used(&before).count();
        let renewal = self.renew_with(table, catalogue);
        let meant = Renewal { used, refusal: 0 };
        let input = (&before, catalogue);
        self.tally.expect(
            Call::TableRenew,
            &input,
            (renewal, &*table),
            (meant, &before),
        );
        let tally = &mut self.tally;
        tally.mark("run: one catalogue, no set changed", used > 1 && !another);
        tally.mark(
            "run: one after another, no set changed",
            used > 1 && another,
        );
    }
}
