//! The message table and its clock.

use std::fmt::Debug;

use proved::{ExpiryAnswer, Report, TableAnswer, TableReading, RECORD_BYTES as RECORD};

use crate::faults;
use crate::lists::Lists;
use crate::records::{self, at_home, location_of, service_of};
use crate::stored::{self, Location};
use crate::tally::Call;
use crate::Trial;

/// The largest minute of a call.
pub const LARGEST: u32 = 4_000_000_000;

impl Trial {
    pub fn minute(&mut self) -> u32 {
        match self.random.below(20) {
            0 => LARGEST + self.random.below(3) as u32,
            1..4 => 0,
            4..8 => LARGEST - self.random.below(3000) as u32,
            8..12 => self.random.below(LARGEST.into()) as u32,
            _ => self.random.below(10_000) as u32,
        }
    }

    /// The minute of the next call, now and then one that is refused.
    pub fn next_minute(&mut self, clock: u32) -> u32 {
        match self.random.below(16) {
            0 => clock.saturating_sub(1),
            1 => LARGEST + 1,
            2 => u32::MAX,
            3 => clock.saturating_add(self.random.below(3000) as u32),
            4 if self.random.once_in(4) => LARGEST,
            _ => clock.saturating_add(self.random.below(4) as u32),
        }
    }

    /// Calls on one table, each on what the last one left.
    pub fn table_walk(&mut self, lists: &Lists) {
        let mut lists = lists.clone();
        let mut clock = self.minute();
        let mut table = self.table(clock, &lists);
        let mut calls = 10;
        if self.random.once_in(5) {
            self.malform(&mut table);
            calls = 4;
        }
        for _ in 0..calls {
            match self.random.below(32) {
                0..5 => self.expire(&mut table, &mut clock),
                5..10 => self.read(&table),
                10..15 => self.renew(&mut table, &mut lists),
                15 => {
                    let damaged = self.damaged(&lists);
                    self.take(&mut table, &mut clock, &lists, &damaged);
                }
                _ => self.take(&mut table, &mut clock, &lists, &lists),
            }
        }
    }

    /// The records used before a call and stored by it are those used after it and those that went.
    pub fn expect_count(
        &self,
        call: Call,
        input: &dyn Debug,
        [before, after]: [&[u8]; 2],
        answer: &TableAnswer,
    ) {
        let used = |table| records::used(table).count();
        let went = answer.expired + answer.matched + usize::from(answer.dropped);
        let came = usize::from(answer.stored);
        self.tally
            .expect(call, input, used(after) + went, used(before) + came);
    }

    pub fn expire(&mut self, table: &mut Vec<u8>, clock: &mut u32) {
        let minute = self.next_minute(*clock);
        let entry = (table.clone(), *clock);
        let (mut a, mut b) = (entry.clone(), entry.clone());
        let proved = proved::table_expire(&mut a.0, &mut a.1, minute);
        let second = calls::table_expire(&mut b.0, &mut b.1, minute);
        let input = (&entry, minute);
        self.tally.agree_lent(
            Call::TableExpire,
            &input,
            &entry,
            (proved, &a),
            (second, &b),
        );
        let faults = faults::of_table(&entry.0);
        self.tally
            .expect_faults(Call::TableExpire, &input, proved.refusal, &faults);
        self.expect_count(Call::TableExpire, &input, [&entry.0, &a.0], &proved);
        self.tally.mark("expire: several", proved.expired > 1);
        (*table, *clock) = a;
    }

    /// Reads a record at any place, now and then past the last.
    fn read(&mut self, table: &[u8]) {
        let count = table.len() / RECORD;
        let random = &mut self.random;
        let place = match random.below(12) {
            0 => count,
            1 => random.number() as usize,
            _ => random.index(count + 1),
        };
        self.read_at(table, place);
    }

    /// Reads the record at a place, in its table and alone.
    pub fn read_at(&mut self, table: &[u8], place: usize) -> TableReading {
        let proved = proved::table_read(table, place);
        let second = calls::table_read(table, place);
        let input = (table, place);
        self.tally.agree(Call::TableRead, &input, proved, second);
        let faults = faults::of_table(table);
        self.tally
            .expect_faults(Call::TableRead, &input, proved.refusal, &faults);
        // Of a table that is taken, the record's own bytes read the same.
        if let Some(record) = table.chunks(RECORD).nth(place) {
            let alone = self.record_read(record);
            if proved.refusal != 10 {
                self.tally.expect(Call::RecordRead, &input, alone, proved);
            }
        }
        let used = proved.used == 1;
        if used {
            let record = &table[place * RECORD..][..RECORD];
            self.expect_location(&input, record, &proved.report);
        }
        let single = used && proved.report.form == 0;
        let multi = used && proved.report.form == 1;
        let free = proved == TableReading::default();
        self.tally.mark("read: a single-group report", single);
        self.tally.mark("read: a multi-group report", multi);
        self.tally.mark("read: a free record", free);
        proved
    }

    /// The location of a report read from a record, as its bytes say.
    fn expect_location(&mut self, input: &dyn Debug, record: &[u8], report: &Report) {
        let location = location_of(record);
        let home = at_home(location, service_of(record));
        let meant = match home {
            true => (location.code, 0),
            false => {
                let flt = sender::flt_code(location.country, location.ltn);
                (flt, location.code)
            }
        };
        let found = (report.head.location, report.real_location);
        self.tally.expect(Call::TableRead, input, found, meant);
        let single = report.form == 0;
        self.tally
            .mark("read: an INTER-ROAD report", !home && !single);
        self.tally
            .mark("read: one group of a foreign location", !home && single);
        let unread = home && sender::is_inter_road(report);
        self.tally
            .mark("read: an FLT code at home, several groups", unread);
    }

    fn record_read(&mut self, record: &[u8]) -> TableReading {
        let proved = proved::record_read(record);
        let second = calls::record_read(record);
        self.tally.agree(Call::RecordRead, &record, proved, second);
        let faults = faults::of_record(record);
        self.tally
            .expect_faults(Call::RecordRead, &record, proved.refusal, &faults);
        if record.len() == RECORD && record[0] == 1 {
            let Location { country, ltn, .. } = location_of(record);
            let tally = &mut self.tally;
            tally.mark("record read: a location's country over 15", country > 15);
            tally.mark("record read: a location's LTN over 63", ltn > 63);
        }
        proved
    }

    /// Reads a table of one record, of which a byte or a bit at the end of the content was set, or
    /// which was made malformed.
    pub fn record_byte(&mut self, lists: &Lists) {
        let mut record = self.record(1, lists);
        if self.random.once_in(2) {
            self.spoil(&mut record, lists);
        }
        let mut table = record.to_vec();
        let random = &mut self.random;
        match random.below(4) {
            0 => {
                let end = 28 * (u64::from(table[1]) - 1);
                let bit = (end + random.below(3)).saturating_sub(1).min(111) as usize;
                table[16 + bit / 8] |= 0x80 >> (bit % 8);
            }
            1 => self.malform(&mut table),
            _ => {
                let edges = [0, 1, 2, 5, 6, 7, 8, 15, 16, 63, 64, 128, 255];
                table[random.index(RECORD)] = random.pick(&edges);
            }
        }
        self.read(&table);
    }

    pub fn expiry(&mut self) {
        let random = &mut self.random;
        let minute = match random.below(4) {
            0 => random.number() as u32,
            1 => random.below(3000) as u32,
            2 => LARGEST + random.below(3) as u32,
            _ => LARGEST - random.below(3000) as u32,
        };
        let lto = match random.below(8) {
            0 => random.number() as i8,
            _ => random.lto(),
        };
        let life = match random.below(4) {
            0 => 0,
            1 => random.short(16),
            2 => random.pick(&[10_079, 10_080, 10_081]),
            _ => random.short(13),
        };
        let fits = lto.unsigned_abs() <= 31 && minute <= LARGEST;
        // Now and then a midnight of the service.
        let minute = match random.below(4) {
            0 if fits => stored::expiry(minute, lto, 0),
            _ => minute,
        };
        let proved = proved::expiry(minute, lto, life);
        let second = calls::expiry(minute, lto, life);
        let input = (minute, lto, life);
        self.tally.agree(Call::Expiry, &input, proved, second);
        if fits && minute <= LARGEST && life <= 10_080 {
            let meant = ExpiryAnswer {
                minute: stored::expiry(minute, lto, life),
                refusal: 0,
            };
            self.tally.expect(Call::Expiry, &input, proved, meant);
        }
    }
}
