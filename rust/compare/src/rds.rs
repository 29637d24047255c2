//! RDS groups and the repeat rule.

use crate::fields::Fields;
use crate::tally::Call;
use crate::Trial;
use proved::{RdsGroup, RdsReading, RdsReceived, RdsRun};
use sender::WORD_LIMIT;

/// What stands in a lent byte before a call.
pub const BYTE: u8 = 0xA5;

impl Trial {
    /// Damages a group: a bit, its type, its length, or all of it.
    fn damage_group(&mut self, group: &mut Vec<u8>) {
        let random = &mut self.random;
        match random.below(4) {
            0 => {
                let at = random.index(group.len());
                group[at] ^= 1 << random.below(8);
            }
            1 => group[2] ^= 1 << (3 + random.below(5)),
            2 => group.resize(random.pick(&[0, 1, 7, 9, 16, 264]), 0x80),
            _ => group
                .iter_mut()
                .for_each(|byte| *byte = random.number() as u8),
        }
    }

    /// Bytes that are refused: another length or another type.
    fn refused_group(&mut self, word: u64) -> Vec<u8> {
        let mut group = sender::group(sender::random_group(&mut self.random, word));
        if self.random.once_in(2) {
            group.resize(self.random.pick(&[0, 1, 7, 9, 16, 264]), 0x80);
        } else {
            group[2] ^= 8 * (1 + self.random.below(31)) as u8;
        }
        group
    }

    /// A group built field by field reads as its fields.
    pub fn rds_read(&mut self) {
        let word = self.any_word() % WORD_LIMIT;
        let group = sender::random_group(&mut self.random, word);
        let mut bytes = sender::group(group);
        let damaged = self.random.once_in(2);
        if damaged {
            self.damage_group(&mut bytes);
        }
        let proved = proved::rds_read(&bytes);
        let second = calls::rds_read(&bytes);
        self.tally.agree(Call::RdsRead, &bytes, proved, second);
        if !damaged {
            let meant = RdsReading { group, refusal: 0 };
            self.tally.expect(Call::RdsRead, &bytes, proved, meant);
        }
    }

    pub fn rds_write(&mut self) {
        let word = self.any_word();
        let mut group = sender::random_group(&mut self.random, word);
        if self.random.once_in(4) {
            self.random.damage(group.fields());
        }
        let entry = vec![BYTE; self.random.room(8)];
        let (mut a, mut b) = (entry.clone(), entry.clone());
        let proved = proved::rds_write(group, &mut a);
        let second = calls::rds_write(group, &mut b);
        let input = (group, entry.len());
        self.tally
            .agree_lent(Call::RdsWrite, &input, &entry, (proved, &a), (second, &b));
        let RdsGroup { tp, pty, word, .. } = group;
        if tp > 1 || pty > 31 || word >= WORD_LIMIT {
            self.tally.expect(Call::RdsWrite, &input, proved, 9);
        } else if entry.len() >= 8 {
            let mut meant = sender::group(group);
            meant.resize(entry.len(), BYTE);
            self.tally
                .expect(Call::RdsWrite, &input, (proved, a), (0, meant));
        }
    }

    /// One group on both sides. A refusal keeps the run.
    pub fn receive(&mut self, run: RdsRun, bytes: &[u8]) -> RdsReceived {
        let proved = proved::rds_receive(run, bytes);
        let second = calls::rds_receive(run, bytes);
        let input = (run, bytes);
        self.tally.agree(Call::RdsReceive, &input, proved, second);
        if proved.refusal != 0 {
            self.tally.expect(Call::RdsReceive, &input, proved.run, run);
        }
        proved
    }

    /// Groups of few words, often damaged, from any run.
    pub fn rds_receive(&mut self) {
        let words = [self.any_word() % WORD_LIMIT, self.any_word() % WORD_LIMIT];
        let mut run = RdsRun::default();
        if self.random.once_in(2) {
            run = RdsRun {
                word: self.random.pick(&words),
                count: 1 + self.random.below(2) as u8,
            };
            if self.random.once_in(2) {
                self.random.damage(run.fields());
            }
        }
        let given = match run.count {
            0 => run.word == 0,
            1 | 2 => run.word < WORD_LIMIT,
            _ => false,
        };
        self.tally
            .mark("RDS receive: a run that no calls give", !given);
        for _ in 0..10 {
            let word = self.random.pick(&words);
            let mut bytes = sender::group(sender::random_group(&mut self.random, word));
            if self.random.once_in(3) {
                self.damage_group(&mut bytes);
            }
            let received = self.receive(run, &bytes);
            let input = (run, &bytes);
            self.tally
                .expect(Call::RdsReceive, &input, received.refusal == 9, !given);
            run = received.run;
        }
    }

    /// Copies of words in turn, refused groups among them: each word that comes twice running or
    /// more is valid at its second copy, and at no other.
    pub fn rds_copies(&mut self) {
        let mut run = RdsRun::default();
        let mut last = None;
        for _ in 0..8 {
            let word = self.any_word() % WORD_LIMIT;
            if last == Some(word) {
                continue;
            }
            last = Some(word);
            let copies = self.random.pick(&[1, 2, 2, 3, 5]);
            for copy in 1..=copies {
                while self.random.once_in(6) {
                    let bytes = self.refused_group(word);
                    let refusal = self.receive(run, &bytes).refusal;
                    let meant = if bytes.len() == 8 { 2 } else { 1 };
                    self.tally.expect(Call::RdsReceive, &bytes, refusal, meant);
                }
                let group = sender::random_group(&mut self.random, word);
                let received = self.receive(run, &sender::group(group));
                let valid = copy == 2;
                let count = copy.min(2);
                let meant = RdsReceived {
                    run: RdsRun { word, count },
                    word: if valid { word } else { 0 },
                    valid: valid.into(),
                    refusal: 0,
                };
                let input = (run, group, copy);
                self.tally.expect(Call::RdsReceive, &input, received, meant);
                run = received.run;
            }
        }
    }
}
