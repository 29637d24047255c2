//! The second program's calls in the proved library's form: structs and slices. On a refusal the
//! other fields of an answer are 0, but for the state that goes on with the next call and the place
//! at which content broke.

#![deny(warnings)]

use proved::{
    AssemblerAnswer, DrmReading, ExpiryAnswer, FibReading, FigReading, RdsReading, RdsReceived,
    Renewal, SystemFields, SystemReading, SystemWritten, TableAnswer, TableReading, Taking,
    WordComposed, WordFields, WordParsed, Written,
};
use second::assembler::{Answer, Assembler, Open};
use second::clock::Utc;
use second::content::{Item, Items, MOST_ITEMS};
use second::drm::{Counts, Header, Unit, MOST_SYSTEM_WORDS};
use second::fig::Fig;
use second::rds::{Group, Run};
use second::report::Report;
use second::system::SystemWord;
use second::table::{self, Arrival, Entry, Lists, Service, WhenFull};
use second::word::{self, Head, Word};
use second::{fib, Refusal};

pub use second::crc::crc as check_word;

type Refused<T> = Result<T, Refusal>;

const _: () = assert!(MOST_ITEMS == proved::ITEMS);
const _: () = assert!(table::RECORD == proved::RECORD_BYTES);

/// A value and no refusal, or a blank value and the refusal's number.
fn split<T: Default>(answer: Refused<T>) -> (T, u8) {
    match answer {
        Ok(value) => (value, 0),
        Err(refusal) => (T::default(), refusal.number()),
    }
}

fn flag(number: u8) -> Refused<bool> {
    match number {
        0 => Ok(false),
        1 => Ok(true),
        _ => Err(Refusal::Unfit),
    }
}

/// Refuses what is not as it must be.
fn require(fit: bool) -> Refused<()> {
    match fit {
        true => Ok(()),
        false => Err(Refusal::Unfit),
    }
}

fn head(head: proved::Head) -> Head {
    Head {
        direction: head.direction,
        extent: head.extent,
        event: head.event,
        location: head.location,
    }
}

fn of_head(head: Head) -> proved::Head {
    proved::Head {
        direction: head.direction,
        extent: head.extent,
        event: head.event,
        location: head.location,
    }
}

fn of_word(word: Word) -> WordFields {
    let none = WordFields::default();
    match word {
        Word::Single {
            duration,
            diversion,
            head,
        } => WordFields {
            duration,
            diversion,
            head: of_head(head),
            ..none
        },
        Word::First { index, head } => WordFields {
            kind: 1,
            ci: index,
            head: of_head(head),
            ..none
        },
        Word::Later {
            index,
            second,
            gsi,
            content,
        } => WordFields {
            kind: 2,
            ci: index,
            second: second.into(),
            gsi,
            content,
            ..none
        },
        Word::Tuning(word) => WordFields {
            kind: 3,
            word,
            ..none
        },
        Word::Administration(word) => WordFields {
            kind: 4,
            word,
            ..none
        },
        Word::Index7(word) => WordFields {
            kind: 5,
            word,
            ..none
        },
    }
}

fn word(fields: WordFields) -> Refused<Word> {
    let word = match fields.kind {
        0 => Word::Single {
            duration: fields.duration,
            diversion: fields.diversion,
            head: head(fields.head),
        },
        1 => Word::First {
            index: fields.ci,
            head: head(fields.head),
        },
        2 => Word::Later {
            index: fields.ci,
            second: flag(fields.second)?,
            gsi: fields.gsi,
            content: fields.content,
        },
        3 => Word::Tuning(fields.word),
        4 => Word::Administration(fields.word),
        5 => Word::Index7(fields.word),
        _ => return Err(Refusal::Unfit),
    };
    // What the kind does not have is 0.
    require(of_word(word) == fields)?;
    Ok(word)
}

pub fn word_parse(number: u64) -> WordParsed {
    let (fields, refusal) = split(Word::read(number).map(of_word));
    WordParsed { fields, refusal }
}

pub fn word_compose(fields: WordFields) -> WordComposed {
    let (word, refusal) = split(word(fields).and_then(Word::write));
    WordComposed { word, refusal }
}

fn of_system(system: SystemWord) -> SystemFields {
    match system {
        SystemWord::Table {
            ltn,
            afi,
            mode,
            scopes: [international, national, regional, urban],
        } => SystemFields {
            ltn,
            afi,
            mode,
            international,
            national,
            regional,
            urban,
            ..SystemFields::default()
        },
        SystemWord::Service {
            gap,
            sid,
            ta,
            tw,
            td,
        } => SystemFields {
            variant: 1,
            gap,
            sid,
            ta,
            tw,
            td,
            ..SystemFields::default()
        },
    }
}

fn system(fields: SystemFields) -> Refused<SystemWord> {
    let system = match fields.variant {
        0 => SystemWord::Table {
            ltn: fields.ltn,
            afi: fields.afi,
            mode: fields.mode,
            scopes: [
                fields.international,
                fields.national,
                fields.regional,
                fields.urban,
            ],
        },
        1 => SystemWord::Service {
            gap: fields.gap,
            sid: fields.sid,
            ta: fields.ta,
            tw: fields.tw,
            td: fields.td,
        },
        _ => return Err(Refusal::Unfit),
    };
    // What the variant does not have is 0.
    require(of_system(system) == fields)?;
    Ok(system)
}

pub fn system_read(word: u16) -> SystemReading {
    let (fields, refusal) = split(SystemWord::read(word).map(of_system));
    SystemReading { fields, refusal }
}

pub fn system_write(fields: SystemFields) -> SystemWritten {
    let (word, refusal) = split(system(fields).and_then(SystemWord::write));
    SystemWritten { word, refusal }
}

/// The report of C's fields. What a field cannot hold becomes a field out of its range.
fn report(report: &proved::Report) -> Report {
    let byte = |number: u16| u8::try_from(number).unwrap_or(u8::MAX);
    let mut items = Items {
        count: u8::try_from(report.item_count).unwrap_or(u8::MAX),
        ..Items::NONE
    };
    for (place, item) in items.places.iter_mut().zip(&report.items) {
        *place = Item {
            label: byte(item.label),
            value: item.value,
        };
    }
    let mut head = head(report.head);
    if report.form > 1 {
        head.direction = u8::MAX;
    }
    Report {
        multi: report.form == 1,
        head,
        real_location: report.real_location,
        diversion: report.diversion,
        duration: report.duration,
        items,
    }
}

fn of_report(report: &Report) -> proved::Report {
    proved::Report {
        items: report.items.places.map(|item| proved::Item {
            label: item.label.into(),
            value: item.value,
        }),
        item_count: report.items.count.into(),
        head: of_head(report.head),
        real_location: report.real_location,
        diversion: report.diversion,
        duration: report.duration,
        form: report.multi.into(),
    }
}

pub fn report_write(fields: proved::Report, ci: u8, words: &mut [u64]) -> Written {
    let (count, refusal) = split(report(&fields).write(ci, words));
    Written { count, refusal }
}

/// The state; all 0 is the empty one, and no other with index 0 is reached.
fn assembler(state: proved::Assembler) -> Assembler {
    if state == proved::Assembler::default() {
        return Assembler::Empty;
    }
    Assembler::Open(Open {
        index: state.ci,
        head: head(state.first_group),
        gsi: state.gsi,
        count: state.later_groups,
        contents: state.contents,
    })
}

fn of_assembler(state: Assembler) -> proved::Assembler {
    match state {
        Assembler::Empty => proved::Assembler::default(),
        Assembler::Open(open) => proved::Assembler {
            ci: open.index,
            first_group: of_head(open.head),
            gsi: open.gsi,
            later_groups: open.count,
            contents: open.contents,
        },
    }
}

pub fn assembler_step(state: proved::Assembler, word: u64) -> AssemblerAnswer {
    let step = assembler(state).step(word);
    let none = AssemblerAnswer {
        next: of_assembler(step.next),
        ..AssemblerAnswer::default()
    };
    match step.answer {
        Answer::Nothing => none,
        Answer::Report(report) => AssemblerAnswer {
            kind: 1,
            report: of_report(&report),
            ..none
        },
        Answer::Tuning(word) => AssemblerAnswer {
            kind: 2,
            word,
            ..none
        },
        Answer::Administration(word) => AssemblerAnswer {
            kind: 3,
            word,
            ..none
        },
        Answer::Refused(refusal) => AssemblerAnswer {
            refusal: refusal.number(),
            broken_at: refusal.broken_at().into(),
            ..none
        },
    }
}

pub fn rds_read(bytes: &[u8]) -> RdsReading {
    let (group, refusal) = split(Group::read(bytes).map(|group| proved::RdsGroup {
        pi: group.pi,
        tp: group.tp,
        pty: group.pty,
        word: group.word,
    }));
    RdsReading { group, refusal }
}

pub fn rds_write(group: proved::RdsGroup, out: &mut [u8]) -> u8 {
    let group = Group {
        pi: group.pi,
        tp: group.tp,
        pty: group.pty,
        word: group.word,
    };
    let ((), refusal) = split(group.write(out));
    refusal
}

fn run(run: proved::RdsRun) -> Refused<Run> {
    match (run.count, run.word) {
        (0, 0) => Ok(Run::None),
        (1, word) if word < word::LIMIT => Ok(Run::One(word)),
        (2, word) if word < word::LIMIT => Ok(Run::Counted(word)),
        _ => Err(Refusal::Unfit),
    }
}

fn of_run(run: Run) -> proved::RdsRun {
    let (count, word) = match run {
        Run::None => (0, 0),
        Run::One(word) => (1, word),
        Run::Counted(word) => (2, word),
    };
    proved::RdsRun { word, count }
}

/// A run that no calls give is refused before the group is looked at.
pub fn rds_receive(before: proved::RdsRun, bytes: &[u8]) -> RdsReceived {
    let received = run(before).and_then(|run| {
        let group = Group::read(bytes)?;
        let (after, valid) = run.next(group.word);
        Ok(RdsReceived {
            run: of_run(after),
            word: if valid { group.word } else { 0 },
            valid: valid.into(),
            refusal: 0,
        })
    });
    received.unwrap_or_else(|refusal| RdsReceived {
        run: before,
        refusal: refusal.number(),
        ..RdsReceived::default()
    })
}

pub fn fig_read(bytes: &[u8], words: &mut [u64]) -> FigReading {
    let read = Fig::read(bytes, words).map(|(fig, count)| {
        let d1 = fig.system.into();
        let tcid = fig.tcid;
        (proved::Fig { d1, tcid }, count)
    });
    let ((fig, count), refusal) = split(read);
    FigReading {
        count,
        fig,
        refusal,
    }
}

pub fn fib_read(bytes: &[u8], words: &mut [u64], origins: &mut [u8]) -> FibReading {
    let read = fib::read(bytes, words, origins).map(|reading| {
        let refused = reading.refused;
        FibReading {
            count: reading.count,
            fig_begin: refused.map_or(0, |fig| fig.begin),
            fig_refusal: refused.map_or(0, |fig| fig.refusal.number()),
            refusal: 0,
        }
    });
    let (reading, refusal) = split(read);
    FibReading { refusal, ..reading }
}

pub fn drm_read(bytes: &[u8], words: &mut [u64]) -> DrmReading {
    let mut system = [0; MOST_SYSTEM_WORDS];
    let read = Unit::read(bytes, &mut system, words).map(|(unit, counts)| {
        let Counts { system: m, words } = counts;
        let header = unit.header.unwrap_or_default();
        let unit = proved::DrmUnit {
            tmchi: unit.header.is_some().into(),
            short_id: unit.short_id,
            services: header.services,
            country: header.country,
            ecc: header.ecc,
            lto: header.lto,
            system_count: m as u8,
            system_words: system,
        };
        (unit, words)
    });
    let ((unit, count), refusal) = split(read);
    DrmReading {
        count,
        unit,
        refusal,
    }
}

/// The unit and its system words, after which the unused ones must be 0.
fn unit(fields: &proved::DrmUnit) -> Refused<(Unit, &[u16])> {
    let header = Header {
        services: fields.services,
        country: fields.country,
        ecc: fields.ecc,
        lto: fields.lto,
    };
    let headed = flag(fields.tmchi)?;
    require(headed || header == Header::default())?;
    let count = usize::from(fields.system_count);
    let split = fields.system_words.split_at_checked(count);
    let (system, unused) = split.ok_or(Refusal::Unfit)?;
    require(unused.iter().all(|&word| word == 0))?;
    let unit = Unit {
        short_id: fields.short_id,
        header: headed.then_some(header),
    };
    Ok((unit, system))
}

pub fn drm_write(fields: proved::DrmUnit, words: &[u64], out: &mut [u8]) -> Written {
    let (count, refusal) =
        split(unit(&fields).and_then(|(unit, system)| unit.write(system, words, out)));
    Written { count, refusal }
}

pub fn table_take(table: &mut [u8], clock: &mut u32, taking: &Taking) -> TableAnswer {
    let report = report(&taking.report);
    let lists = Lists {
        catalogue: taking.catalogue,
        lives: taking.lives,
    };
    // With another number the offset becomes one out of its range, for the same refusal.
    let (when_full, lto) = match taking.when_full {
        proved::DROP => (WhenFull::Drop, taking.lto),
        proved::KEEP => (WhenFull::Keep, taking.lto),
        _ => (WhenFull::default(), i8::MAX),
    };
    let arrival = Arrival {
        report: &report,
        service: Service {
            country: taking.service.country,
            ltn: taking.service.ltn,
            sid: taking.service.sid,
        },
        lto,
        minute: Utc(taking.minute),
    };
    let mut last = Utc(*clock);
    let taken = table::take(table, lists, &mut last, arrival, when_full);
    *clock = last.0;
    let (answer, refusal) = split(taken.map(|taken| TableAnswer {
        expired: taken.expired,
        matched: taken.matched,
        place: taken.place.unwrap_or(0),
        stored: taken.place.is_some().into(),
        dropped: taken.dropped.is_some().into(),
        refusal: 0,
    }));
    TableAnswer { refusal, ..answer }
}

pub fn table_expire(table: &mut [u8], clock: &mut u32, minute: u32) -> TableAnswer {
    let mut last = Utc(*clock);
    let freed = table::expire(table, &mut last, Utc(minute));
    *clock = last.0;
    let (expired, refusal) = split(freed);
    TableAnswer {
        expired,
        refusal,
        ..TableAnswer::default()
    }
}

pub fn table_renew(table: &mut [u8], catalogue: &[u16]) -> Renewal {
    let (used, refusal) = split(table::renew(table, catalogue));
    Renewal { used, refusal }
}

pub fn table_read(table: &[u8], place: usize) -> TableReading {
    of_reading(table::read(table, place))
}

pub fn record_read(record: &[u8]) -> TableReading {
    of_reading(table::read_record(record))
}

fn of_reading(read: Refused<Option<Entry>>) -> TableReading {
    match read {
        Ok(None) => TableReading::default(),
        Ok(Some(entry)) => TableReading {
            report: of_report(&entry.report),
            service: proved::Service {
                country: entry.service.country,
                ltn: entry.service.ltn,
                sid: entry.service.sid,
            },
            expiry: entry.expiry,
            used: 1,
            ..TableReading::default()
        },
        Err(refusal) => TableReading {
            refusal: refusal.number(),
            broken_at: refusal.broken_at().into(),
            ..TableReading::default()
        },
    }
}

pub fn expiry(minute: u32, lto: i8, life: u16) -> ExpiryAnswer {
    let (Utc(minute), refusal) = split(Utc(minute).expiry(lto, life));
    ExpiryAnswer { minute, refusal }
}
