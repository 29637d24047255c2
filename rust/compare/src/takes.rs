//! Takes of reports into tables.

use std::fmt::Debug;

use proved::RECORD_BYTES as RECORD;
use proved::{Head, Report, Service, TableAnswer, TableReading, Taking, DROP, KEEP};
use sender::Message;

use crate::classes::{self, Classes, Meeting, Set};
use crate::faults::{self, Faults};
use crate::fields::Fields;
use crate::full;
use crate::lists::Lists;
use crate::records::{self, at_home, location_of, service_of};
use crate::records::{COUNTRIES, LOCATIONS, NEAR_FLT, NUMBERS};
use crate::stored::{self, Location};
use crate::tally::Call;
use crate::Trial;

/// A remaining record of the report's service, location and direction.
struct Met {
    /// The classes that it stores and the report has.
    common: Set,
    /// Whether it stores the classes of its events and no others.
    right: bool,
    /// Whether its first event has a class.
    classed: bool,
    /// What the events of both have in common, if its content reads as items.
    events: Option<Meeting>,
}

impl Met {
    fn new(report: &Classes, record: &[u8], catalogue: &[u16]) -> Self {
        let stored = classes::stored(record);
        let first = classes::class(catalogue, records::event_of(record));
        let events = Classes::of_record(catalogue, record);
        Self {
            common: &report.set() & &stored,
            right: events.as_ref().is_some_and(|events| events.set() == stored),
            classed: first.is_some(),
            events: events.map(|events| report.meet(&events)),
        }
    }

    fn matches(&self) -> bool {
        !self.common.is_empty()
    }

    /// Whether the events share classes just so, and these are the ones that are stored.
    fn shares(&self, shared: [bool; 4]) -> bool {
        self.right && self.events.is_some_and(|events| events.shared == shared)
    }
}

/// What a take answers and leaves that is accepted or finds no room.
#[derive(Default)]
struct Meant {
    answer: TableAnswer,
    table: Vec<u8>,
    /// The locations of records that would match but for the table of their location.
    near: Vec<Location>,
    met: Vec<Met>,
}

/// What such a take means, by the rules' three steps over the bytes of a record one after the
/// other.
fn meant_by(before: &[u8], taking: &Taking) -> Meant {
    let Taking {
        catalogue,
        report,
        service,
        minute,
        lto,
        when_full,
        ..
    } = *taking;
    let entry = catalogue[usize::from(report.head.event)];
    let kind = entry >> 6 & 3;
    let duration_type = usize::from(entry >> 8 & 1);
    let life = taking.lives[8 * duration_type + usize::from(report.duration)];
    let location = stored::location(&report, service);
    let classes = Classes::of_report(catalogue, &report);
    let mut meant = Meant {
        table: before.to_vec(),
        ..Meant::default()
    };
    let Meant {
        answer,
        table,
        near,
        met,
    } = &mut meant;
    for record in table.chunks_mut(RECORD).filter(|record| record[0] == 1) {
        if records::expiry_of(record) <= minute {
            answer.expired += 1;
            record.fill(0);
            continue;
        }
        let of = location_of(record);
        let alike = (kind == 1 || kind == 2)
            && service_of(record) == service
            && (of.code, record[8]) == (location.code, report.head.direction);
        if !alike {
            continue;
        }
        let of_record = Met::new(&classes, record, catalogue);
        let matches = of_record.matches();
        if of == location {
            met.push(of_record);
            if matches {
                answer.matched += 1;
                record.fill(0);
            }
        } else if matches {
            near.push(of);
        }
    }
    if kind != 1 {
        return meant;
    }
    let free = table.chunks(RECORD).position(|record| record[0] == 0);
    if free.is_none() && when_full == KEEP {
        return Meant {
            answer: TableAnswer {
                refusal: 14,
                ..TableAnswer::default()
            },
            table: before.to_vec(),
            ..Meant::default()
        };
    }
    let place = free.unwrap_or_else(|| full::soonest(table)[0]);
    let expiry = stored::expiry(minute, lto, life);
    let record = stored::record(&report, service, expiry, &classes.set());
    table[place * RECORD..][..RECORD].copy_from_slice(&record);
    answer.stored = 1;
    answer.place = place;
    answer.dropped = free.is_none().into();
    meant
}

/// Gives a report this code as its location's.
pub fn locate(report: &mut Report, code: u16) {
    match sender::is_inter_road(report) {
        true => report.real_location = code,
        false => report.head.location = code,
    }
}

/// The faults for which a take is refused.
fn faults(table: &[u8], taking: &Taking) -> Faults {
    let mut faults = faults::of_table(table);
    faults.extend(faults::of_catalogue(taking.catalogue));
    faults.extend(faults::of_lives(taking.lives));
    faults
}

impl Trial {
    /// A report that fits and that records of [`Trial::table`] may match.
    pub fn arrival(&mut self, lists: &Lists) -> Report {
        let random = &mut self.random;
        let code = if random.once_in(16) {
            random.pick(&NEAR_FLT)
        } else {
            random.pick(&LOCATIONS)
        };
        let mut head = sender::random_head(random);
        head.location = code;
        let abroad = random.once_in(3);
        if abroad {
            head.location = sender::flt_code(random.pick(&COUNTRIES), random.pick(&NUMBERS));
        }
        let report = if random.once_in(if abroad { 8 } else { 3 }) {
            Report {
                head,
                ..Message::single(random).report
            }
        } else {
            Report {
                real_location: if abroad { code } else { 0 },
                ..sender::multi_of(random, head)
            }
        };
        self.with_events(report, lists)
    }

    /// The report with the code and the direction of a record, mostly with an event of one of the
    /// classes that it stores or now and then of its events, and in an INTER-ROAD one mostly the
    /// table of its location.
    pub fn alike(&mut self, mut report: Report, record: &[u8], lists: &Lists) -> Report {
        let random = &mut self.random;
        let location = location_of(record);
        locate(&mut report, location.code);
        if sender::is_inter_road(&report) && !random.once_in(3) {
            report.head.location = sender::flt_code(location.country, location.ltn);
        }
        report.head.direction = record[8];
        let classes = match Classes::of_record(&lists.catalogue, record) {
            Some(events) if random.once_in(4) => events.set(),
            _ => classes::stored(record),
        };
        let shares = |event: &u16| {
            let class = classes::class(&lists.catalogue, *event);
            class.is_some_and(|class| classes.contains(&class))
        };
        let events: Vec<_> = (0..64).map(|_| random.short(11)).filter(shares).collect();
        if events.is_empty() || random.once_in(4) {
            return report;
        }
        let event = random.pick(&events);
        if report.form == 1 && random.once_in(2) {
            return sender::with_event(random, report, event);
        }
        report.head.event = event;
        report
    }

    /// A service that records of [`Trial::table`] may have.
    pub fn service(&mut self) -> Service {
        let random = &mut self.random;
        Service {
            country: random.pick(&COUNTRIES),
            ltn: random.pick(&NUMBERS),
            sid: random.pick(&NUMBERS),
        }
    }

    /// What a take is given: the lent lists, and mostly a report that fits, often one that a record
    /// may match by these lists.
    fn taking<'a>(
        &mut self,
        table: &[u8],
        clock: u32,
        lists: &Lists,
        lent: &'a Lists,
    ) -> Taking<'a> {
        let mut report = self.arrival(lists);
        let minute = self.next_minute(clock);
        let mut service = self.service();
        let used: Vec<_> = records::used(table).collect();
        if !used.is_empty() && self.random.once_in(2) {
            let record = self.random.pick(&used);
            service = service_of(record);
            report = self.alike(report, record, lists);
        }
        if self.random.once_in(8) {
            report = self.any_report();
        }
        let random = &mut self.random;
        if random.once_in(16) {
            random.damage(service.fields());
        }
        let lto = if random.once_in(16) {
            random.number() as i8
        } else {
            random.lto()
        };
        let when_full = if random.once_in(16) {
            random.pick(&full::NO_CHOICE)
        } else {
            random.pick(&[DROP, KEEP])
        };
        Taking {
            catalogue: &lent.catalogue,
            lives: &lent.lives,
            report,
            service,
            minute,
            lto,
            when_full,
        }
    }

    /// A take with the lists that it is lent, of a report for these lists.
    pub fn take(&mut self, table: &mut Vec<u8>, clock: &mut u32, lists: &Lists, lent: &Lists) {
        let taking = self.taking(table, *clock, lists, lent);
        self.take_with(table, clock, &taking);
    }

    /// A take that is given just this.
    pub fn take_with(
        &mut self,
        table: &mut Vec<u8>,
        clock: &mut u32,
        taking: &Taking,
    ) -> TableAnswer {
        let entry = (table.clone(), *clock);
        let (mut a, mut b) = (entry.clone(), entry.clone());
        let proved = proved::table_take(&mut a.0, &mut a.1, taking);
        let second = calls::table_take(&mut b.0, &mut b.1, taking);
        let input = (&entry, taking);
        self.tally
            .agree_lent(Call::TableTake, &input, &entry, (proved, &a), (second, &b));
        let faults = faults(&entry.0, taking);
        self.tally
            .expect_faults(Call::TableTake, &input, proved.refusal, &faults);
        self.expect_foreign(&input, taking, proved.refusal);
        if taking.when_full > KEEP {
            let refused = matches!(proved.refusal, 9 | 10);
            self.tally.expect(Call::TableTake, &input, refused, true);
        }
        let mut meant = Meant::default();
        if matches!(proved.refusal, 0 | 14) {
            meant = meant_by(&entry.0, taking);
            let left = match meant.answer.refusal {
                0 => (meant.table.clone(), taking.minute),
                _ => entry.clone(),
            };
            self.tally
                .expect(Call::TableTake, &input, (proved, &a), (meant.answer, &left));
        }
        self.expect_count(Call::TableTake, &input, [&entry.0, &a.0], &proved);
        self.mark_steps(taking, &proved);
        self.mark_locations(taking, &proved, &meant.near);
        self.mark_events(taking, &meant);
        self.mark_sets(taking, &meant);
        self.mark_full(&entry.0, taking, &proved);
        self.mark_dropped(&entry.0, &a.0, &proved);
        (*table, *clock) = a;
        proved
    }

    /// A take refuses 12 for an FLT code as the location's code and for nothing else, and a real
    /// location where there is no place for it.
    fn expect_foreign(&mut self, input: &dyn Debug, taking: &Taking, refusal: u8) {
        let report = &taking.report;
        if matches!(refusal, 0 | 11 | 12 | 14) {
            let location = stored::location(report, taking.service);
            let (foreign, meant) = (refusal == 12, sender::is_flt(location.code));
            self.tally.expect(Call::TableTake, input, foreign, meant);
        }
        let misplaced = report.real_location != 0 && !sender::is_inter_road(report);
        if misplaced {
            let unfit = matches!(refusal, 9 | 10);
            self.tally.expect(Call::TableTake, input, unfit, true);
        }
        self.tally.mark(
            "take: a real location without a place",
            misplaced && refusal == 9,
        );
    }

    fn mark_steps(&mut self, taking: &Taking, answer: &TableAnswer) {
        let tally = &mut self.tally;
        let unstored = answer.matched > 0 && answer.stored == 0;
        tally.mark("take: several expired", answer.expired > 1);
        tally.mark("take: several matched", answer.matched > 1);
        tally.mark("take: stored", answer.stored == 1);
        tally.mark(
            "take: stored at a place that is not the first",
            answer.place > 0,
        );
        tally.mark("take: matched and not stored", unstored);
        let other_form = taking.report.form > 1 && answer.refusal == 9;
        tally.mark("take: another form", other_form);
    }

    /// Marks of locations; `near` are those of records that stay for their table alone.
    fn mark_locations(&mut self, taking: &Taking, answer: &TableAnswer, near: &[Location]) {
        let &Taking {
            report, service, ..
        } = taking;
        let inter_road = sender::is_inter_road(&report);
        let home = at_home(stored::location(&report, service), service);
        let (abroad, own) = (inter_road && !home, inter_road && home);
        let matched = answer.matched > 0;
        let tally = &mut self.tally;
        tally.mark("take: INTER-ROAD, stored", abroad && answer.stored == 1);
        tally.mark("take: INTER-ROAD, matched", abroad && matched);
        tally.mark(
            "take: INTER-ROAD, several matched",
            abroad && answer.matched > 1,
        );
        tally.mark("take: own FLT code, a home record matched", own && matched);
        let near_home = near.iter().any(|&near| at_home(near, service));
        tally.mark("take: INTER-ROAD, a home record stays", abroad && near_home);
        let near_abroad = near.iter().any(|&near| !at_home(near, service));
        tally.mark(
            "take: INTER-ROAD, another table's record stays",
            abroad && near_abroad,
        );
        tally.mark("take: at home, a foreign record stays", home && near_abroad);
        let foreign = answer.refusal == 12;
        tally.mark(
            "take: 12 for an FLT code on a single-group report",
            foreign && report.form == 0,
        );
        tally.mark("take: 12 for a real location", foreign && inter_road);
        tally.mark("take: 12 for a real location, own FLT code", foreign && own);
    }

    /// Marks by which events an accepted take matched, or did not.
    fn mark_events(&mut self, taking: &Taking, meant: &Meant) {
        let tally = &mut self.tally;
        let mut met = |mark, such: fn(&Met) -> bool| tally.mark(mark, meant.met.iter().any(such));
        met(
            "take: matched by an additional event of the record alone",
            |met| met.shares([false, true, false, false]),
        );
        met(
            "take: matched by an additional event of the report alone",
            |met| met.shares([false, false, true, false]),
        );
        met(
            "take: matched by an additional event of each alone",
            |met| met.shares([false, false, false, true]),
        );
        met(
            "take: nothing but additional events without a class in common, not matched",
            |met| met.shares([false; 4]) && met.events.is_some_and(|events| events.without_class),
        );
        let items = &taking.report.items;
        let cancelling = |event| classes::kind(taking.catalogue, event) == Some(2);
        tally.mark(
            "take: stored with a cancelling additional event",
            meant.answer.stored == 1 && classes::additional_events(items).any(cancelling),
        );
    }

    /// Marks of the sets by which an accepted take matched, or did not, and of the one it stored.
    fn mark_sets(&mut self, taking: &Taking, meant: &Meant) {
        let tally = &mut self.tally;
        let mut met = |mark, such: fn(&Met) -> bool| tally.mark(mark, meant.met.iter().any(such));
        met("take: matched by class 63 alone", |met| {
            met.common == [63].into()
        });
        met("take: matched by the set, not by the events", |met| {
            met.matches() && met.events.is_some_and(|events| !events.matches())
        });
        met(
            "take: matched by the events, not by the set, stays",
            |met| !met.matches() && met.events.is_some_and(|events| events.matches()),
        );
        met("take: matched, content does not read", |met| {
            met.matches() && met.events.is_none()
        });
        met("take: not matched, content does not read", |met| {
            !met.matches() && met.events.is_none()
        });
        met("take: matched, a first event without a class", |met| {
            met.matches() && !met.classed
        });
        met("take: not matched, a first event without a class", |met| {
            !met.matches() && !met.classed
        });
        let mut stored = Set::new();
        if meant.answer.stored == 1 {
            stored = Classes::of_report(taking.catalogue, &taking.report).set();
        }
        tally.mark("take: class 63 stored", stored.contains(&63));
        tally.mark("take: class 63 stored alone", stored == [63].into());
        tally.mark("take: several classes stored", stored.len() > 1);
    }

    /// A report that was stored reads back; one with the service's own FLT code as one at home.
    pub fn stored(&mut self, lists: &Lists) {
        let random = &mut self.random;
        let service = Service {
            country: random.byte(4),
            ltn: random.byte(6),
            sid: random.byte(6),
        };
        let code = random.pick(&LOCATIONS);
        let head = Head {
            location: code,
            ..sender::random_head(random)
        };
        let entry = lists.catalogue[usize::from(head.event)];
        if entry >> 6 & 3 != 1 {
            return;
        }
        let report = match random.below(6) {
            0 | 1 => Report {
                head,
                ..Message::single(random).report
            },
            2 | 3 => sender::multi_of(random, head),
            which => {
                let location = match which {
                    4 => sender::flt_code(random.byte(4), random.byte(6)),
                    _ => sender::flt_code(service.country, service.ltn),
                };
                Report {
                    real_location: code,
                    ..sender::multi_of(random, Head { location, ..head })
                }
            }
        };
        let mut table = [0; 4 * RECORD];
        let mut clock = 0;
        let minute = random.below(10_000) as u32;
        let lto = random.lto();
        let when_full = random.pick(&[DROP, KEEP]);
        let taking = Taking {
            catalogue: &lists.catalogue,
            lives: &lists.lives,
            report,
            service,
            minute,
            lto,
            when_full,
        };
        let input = (report, service, minute, lto, when_full);
        let taken = proved::table_take(&mut table, &mut clock, &taking);
        let meant = TableAnswer {
            stored: 1,
            ..TableAnswer::default()
        };
        self.tally
            .expect(Call::TableTake, &input, (taken, clock), (meant, minute));
        let read = proved::table_read(&table, 0);
        let duration_type = usize::from(entry >> 8 & 1);
        let life = lists.lives[8 * duration_type + usize::from(report.duration)];
        let meant = TableReading {
            report: stored::read_back(report, service),
            service,
            expiry: stored::expiry(minute, lto, life),
            used: 1,
            ..TableReading::default()
        };
        self.tally.expect(Call::TableRead, &input, read, meant);
        self.tally.count(Call::TableTake, 0);
        self.tally.count(Call::TableRead, 0);
        let inter_road = sender::is_inter_road(&report);
        let own = meant.report != report;
        self.tally
            .mark("stored: INTER-ROAD, read back", inter_road && !own);
        self.tally
            .mark("stored: own FLT code, read back at home", own);
    }
}
