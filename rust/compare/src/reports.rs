//! Reports and the assembler.

use crate::carriers::{filled, WORD};
use crate::fields::Fields;
use crate::tally::Call;
use crate::Trial;
use proved::{Assembler, AssemblerAnswer, Head, Item, Report, Written, ITEMS};
use sender::{Message, CONTENT_BITS, WORD_LIMIT};

/// Fields of a report beside its items.
const BESIDE_ITEMS: usize = 9;

impl Trial {
    /// A report, often unfit.
    pub fn any_report(&mut self) -> Report {
        let random = &mut self.random;
        let mut report = Message::random(random).report;
        if !random.once_in(3) {
            return report;
        }
        let count = report.item_count;
        match random.below(10) {
            // One of the fields beside the items.
            0 | 1 => {
                let mut fields = report.fields();
                fields.truncate(BESIDE_ITEMS);
                random.damage(fields);
            }
            2 => {
                let mut fields = report.fields();
                fields.truncate(BESIDE_ITEMS + 2 * count);
                random.damage(fields);
            }
            3 => random.damage(report.fields()),
            4 => {
                // Up to 28 items of any length, so often over 112 bits.
                let items: Vec<_> = (0..random.index(ITEMS + 1))
                    .map(|_| sender::random_item(random))
                    .collect();
                report = sender::multi_report(sender::random_head(random), 0, &items);
            }
            5 if count > 0 => report.items[count - 1] = Item::default(),
            6 if count > 0 => report.items[count - 1].label = 15,
            // Mostly where there is no place for it.
            7 => report.real_location = random.short(16),
            8 => {
                // As many bits of items as there are at home.
                let head = Head {
                    location: sender::flt_code(random.byte(4), random.byte(6)),
                    ..sender::random_head(random)
                };
                let items = sender::random_items(random, CONTENT_BITS);
                report = sender::multi_report(head, random.short(16), &items);
            }
            // An unused place.
            _ if count < ITEMS => {
                let place = count + random.index(ITEMS - count);
                random.damage(report.items[place].fields());
            }
            _ => {}
        }
        report
    }

    pub fn report_write(&mut self) {
        let plain = self.random.once_in(3);
        let (report, ci, meant) = if plain {
            let message = self.whole_message();
            (message.report, message.ci, message.words)
        } else {
            let report = self.any_report();
            let ci = match (self.random.once_in(8), report.form) {
                (true, _) => self.random.byte(8),
                (_, 0) => 0,
                _ => self.random.ci(),
            };
            (report, ci, vec![])
        };
        let room = if self.random.once_in(4) {
            self.random.index(6)
        } else {
            6
        };
        let entry = vec![WORD; room];
        let (mut a, mut b) = (entry.clone(), entry.clone());
        let proved = proved::report_write(report, ci, &mut a);
        let second = calls::report_write(report, ci, &mut b);
        let input = (report, ci, room);
        self.tally.agree_lent(
            Call::ReportWrite,
            &input,
            &entry,
            (proved, &a),
            (second, &b),
        );
        if plain && room >= meant.len() {
            let written = Written {
                count: meant.len(),
                refusal: 0,
            };
            let meant = (written, filled(&meant, &entry));
            self.tally
                .expect(Call::ReportWrite, &input, (proved, a), meant);
        }
        let other_form = report.form > 1;
        let beyond = report.item_count > ITEMS;
        let mut unused = report.items.iter().skip(report.item_count);
        let unused = unused.any(|&item| item != Item::default());
        let inter_road = sender::is_inter_road(&report);
        let misplaced = report.real_location != 0 && !inter_road;
        let items = &report.items[..report.item_count.min(ITEMS)];
        let known = items.iter().all(|item| item.label < 15);
        let bits = if known { sender::length(items) } else { 0 };
        let over = bits > sender::item_bits(report.head);
        let tally = &mut self.tally;
        tally.mark("report write: another form", other_form);
        tally.mark("report write: 29 items or more", beyond);
        tally.mark("report write: an unused place not 0", unused);
        for (form, mark) in [
            (0, "report write: a real location of a single-group report"),
            (1, "report write: a real location of a report at home"),
        ] {
            tally.mark(mark, misplaced && report.form == form);
        }
        tally.mark(
            "report write: items of an INTER-ROAD report that fit at home alone",
            inter_road && over && bits <= CONTENT_BITS,
        );
        tally.mark(
            "report write: an INTER-ROAD report",
            plain && inter_road && proved.refusal == 0,
        );
        if other_form || beyond || unused || misplaced || over {
            tally.expect(Call::ReportWrite, &input, proved.refusal, 9);
        }
    }

    /// A message in the fewest groups.
    fn whole_message(&mut self) -> Message {
        let random = &mut self.random;
        if random.once_in(3) {
            return Message::single(random);
        }
        let report = sender::random_multi(random);
        let ci = random.ci();
        Message::multi(report, ci, 0)
    }

    /// One step on both sides. Refusals 5, 7 and 8 empty the state, the others keep it.
    pub fn step(&mut self, state: Assembler, word: u64) -> AssemblerAnswer {
        let proved = proved::assembler_step(state, word);
        let second = calls::assembler_step(state, word);
        let input = (state, word);
        self.tally
            .agree(Call::AssemblerStep, &input, proved, second);
        let next = match proved.refusal {
            0 => proved.next,
            5 | 7 | 8 => Assembler::default(),
            _ => state,
        };
        self.tally
            .expect(Call::AssemblerStep, &input, proved.next, next);
        proved
    }

    /// The next later group of the state's message, now and then not quite.
    fn next_word(&mut self, state: &Assembler, parts: &[u32]) -> u64 {
        let (ci, gsi, count) = (state.ci, state.gsi, state.later_groups);
        let random = &mut self.random;
        let mut ci = ci & 7;
        let mut mark = u8::from(count == 0);
        let mut gsi = if count == 0 {
            random.below(4) as u8
        } else {
            gsi.wrapping_sub(1) & 3
        };
        let mut content = parts.get(usize::from(count)).copied().unwrap_or(0);
        if random.once_in(10) {
            match random.below(4) {
                0 => ci = random.ci(),
                1 => gsi = random.below(4) as u8,
                2 => mark ^= 1,
                _ => content = random.bits(28) as u32,
            }
        }
        sender::later_word(ci, mark, gsi, content)
    }

    /// Calls from the empty state, each on the state that the last one gave.
    pub fn assembler_walk(&mut self) {
        let mut state = Assembler::default();
        let mut parts = vec![];
        for _ in 0..40 {
            let word = match self.random.below(10) {
                0 => self.any_word(),
                1 => Message::single(&mut self.random).words[0],
                _ if state.ci > 0 && !self.random.once_in(10) => self.next_word(&state, &parts),
                _ => {
                    let report = sender::random_multi(&mut self.random);
                    parts = sender::parts(&report);
                    let ci = self.random.ci();
                    sender::first_word(ci, report.head)
                }
            };
            let answer = self.step(state, word);
            let unfit = answer.refusal == 9;
            self.tally.expect(
                Call::AssemblerStep,
                &(state, word),
                unfit,
                word >= WORD_LIMIT,
            );
            let tally = &mut self.tally;
            tally.mark("assembler: a report", answer.kind == 1);
            tally.mark("assembler: a tuning word", answer.kind == 2);
            tally.mark("assembler: an administration word", answer.kind == 3);
            let three = answer.next.later_groups == 3;
            tally.mark("assembler: three later groups taken", three);
            let full = answer.report.item_count == ITEMS;
            tally.mark("assembler: 28 items", full);
            let inter_road = sender::is_inter_road(&answer.report);
            let none = inter_road && answer.report.item_count == 0;
            let full = inter_road && answer.report.item_count == 24;
            tally.mark("assembler: an INTER-ROAD report", inter_road);
            tally.mark("assembler: an INTER-ROAD report without items", none);
            tally.mark("assembler: an INTER-ROAD report of 24 items", full);
            state = answer.next;
        }
    }

    /// One call on a state that calls may or may not reach.
    pub fn assembler_state(&mut self) {
        let random = &mut self.random;
        let report = sender::random_multi(random);
        let parts = sender::parts(&report);
        let (count, gsi) = match random.below(3) {
            0 => (random.below(5) as u8, random.below(5) as u8),
            _ => random.pick(&[(0, 0), (1, 1), (1, 2), (1, 3), (2, 1), (2, 2), (3, 1)]),
        };
        let part = |i: usize| {
            let part = parts.get(i).copied().unwrap_or(0);
            if i < usize::from(count) {
                part
            } else {
                0
            }
        };
        let mut state = Assembler {
            ci: random.ci(),
            first_group: report.head,
            gsi,
            later_groups: count,
            contents: [part(0), part(1), part(2)],
        };
        if random.once_in(10) {
            state = Assembler::default();
        }
        if random.once_in(3) {
            random.damage(state.fields());
        }
        let word = if random.once_in(3) {
            self.any_word()
        } else {
            self.next_word(&state, &parts)
        };
        let answer = self.step(state, word);
        let unreached = answer.refusal == 9 && word < WORD_LIMIT;
        let no_index = unreached && state.ci == 0;
        self.tally
            .mark("assembler: a state that no calls reach", unreached);
        self.tally
            .mark("assembler: a state without an index, not empty", no_index);
    }
}
