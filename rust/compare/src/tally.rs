//! What was compared: calls by kind, the refusals each of them gave, and marks on the way.

use std::collections::BTreeMap;
use std::fmt::Debug;
use std::process;

use proved::{BrokenAt, NOT_BROKEN};

use crate::broken::{self, Content, Place};
use crate::faults::{Fault, Faults};

/// The calls, each with the refusals that it can give.
const CALLS: [(Call, &str, &[u8]); 22] = [
    (Call::WordParse, "word parse", &[9]),
    (Call::WordCompose, "word compose", &[9]),
    (Call::SystemRead, "system read", &[2]),
    (Call::SystemWrite, "system write", &[9]),
    (Call::RdsRead, "RDS read", &[1, 2]),
    (Call::RdsWrite, "RDS write", &[9, 15]),
    (Call::RdsReceive, "RDS receive", &[1, 2, 9]),
    (Call::ReportWrite, "report write", &[9, 15]),
    (Call::AssemblerStep, "assembler step", &[5, 6, 7, 8, 9]),
    (Call::FigRead, "FIG read", &[1, 2, 3, 15]),
    (Call::FibRead, "FIB read", &[1, 4]),
    (Call::DrmRead, "DRM read", &[1, 2, 3, 4, 15]),
    (Call::DrmWrite, "DRM write", &[9, 15]),
    (Call::CheckWord, "check word", &[]),
    (Call::TableTake, "table take", &[9, 10, 11, 12, 13, 14]),
    (Call::TableExpire, "table expire", &[10, 13]),
    (Call::TableRenew, "table renew", &[10]),
    (Call::TableRead, "table read", &[7, 8, 9, 10]),
    (Call::RecordRead, "record read", &[7, 8, 10]),
    (Call::Expiry, "expiry", &[9, 10, 13]),
    (Call::Transmission, "transmission", &[]),
    (Call::Listing, "listing", &[]),
];

#[derive(Clone, Copy, Debug, PartialEq, Eq, PartialOrd, Ord)]
pub enum Call {
    WordParse,
    WordCompose,
    SystemRead,
    SystemWrite,
    RdsRead,
    RdsWrite,
    RdsReceive,
    ReportWrite,
    AssemblerStep,
    FigRead,
    FibRead,
    DrmRead,
    DrmWrite,
    CheckWord,
    TableTake,
    TableExpire,
    TableRenew,
    TableRead,
    RecordRead,
    Expiry,
    Transmission,
    Listing,
}

impl Call {
    /// Whether the call can give this refusal.
    fn gives(self, refusal: u8) -> bool {
        let mut calls = CALLS.iter().filter(|(call, _, _)| *call == self);
        calls.any(|(_, _, refusals)| refusals.contains(&refusal))
    }
}

/// What a call answers.
pub trait Answer: Copy + PartialEq + Debug {
    fn refusal(&self) -> u8;

    /// Where content broke, of the answers that say it.
    fn broken_at(&self) -> BrokenAt {
        NOT_BROKEN
    }

    /// Its refusal with all else 0, but for a state that goes on with the next call and the place
    /// where content broke.
    fn blank(&self) -> Self;
}

/// Answers that have a refusal, with the state that goes on and where content broke.
macro_rules! answers {
    ($($name:ident { $($state:ident)? } $(+ $broken_at:ident)?)*) => {$(
        impl Answer for proved::$name {
            fn refusal(&self) -> u8 {
                self.refusal
            }

            $(fn $broken_at(&self) -> BrokenAt {
                self.$broken_at
            })?

            fn blank(&self) -> Self {
                Self {
                    refusal: self.refusal,
                    $($state: self.$state,)?
                    $($broken_at: self.$broken_at,)?
                    ..Self::default()
                }
            }
        }
    )*};
}

answers! {
    WordParsed {}
    WordComposed {}
    SystemReading {}
    SystemWritten {}
    RdsReading {}
    RdsReceived { run }
    Written {}
    AssemblerAnswer { next } + broken_at
    FigReading {}
    FibReading {}
    DrmReading {}
    TableAnswer {}
    Renewal {}
    TableReading {} + broken_at
    ExpiryAnswer {}
}

/// The number of a refusal is the whole answer.
impl Answer for u8 {
    fn refusal(&self) -> u8 {
        *self
    }

    fn blank(&self) -> Self {
        *self
    }
}

/// A call that never refuses.
macro_rules! unrefused {
    ($($type:ty)*) => {$(
        impl Answer for $type {
            fn refusal(&self) -> u8 {
                0
            }

            fn blank(&self) -> Self {
                *self
            }
        }
    )*};
}

unrefused!(u16);

#[derive(Default)]
pub struct Tally {
    answers: BTreeMap<(Call, u8), u64>,
    /// Refusals 10 for one fault alone.
    faults: BTreeMap<(Call, Fault), u64>,
    /// Refusals 7 and 8 by the place that the sender knew.
    breaks: BTreeMap<Place, u64>,
    marks: BTreeMap<&'static str, u64>,
}

/// The line of refusals for one fault alone.
fn fault_line(call: &str, fault: Fault) -> String {
    format!("{call}: 10 for {} alone", fault.name())
}

/// The line of refusals of content.
fn break_line(content: Content, refusal: u8) -> String {
    format!("{}: {refusal}", content.name())
}

/// Prints a difference and ends.
pub fn fail(what: &str, input: &dyn Debug, left: &dyn Debug, right: &dyn Debug) -> ! {
    println!("DIFFERENCE: {what}");
    println!("input: {input:x?}");
    println!("one:   {left:x?}");
    println!("other: {right:x?}");
    process::exit(1)
}

impl Tally {
    /// Compares the two programs' answers to one call that was lent nothing to write to.
    pub fn agree<A: Answer>(&mut self, call: Call, input: &dyn Debug, proved: A, second: A) {
        self.agree_lent(call, input, &(), (proved, &()), (second, &()));
    }

    /// Compares the two programs' answers to one call, and what was lent. A refusal must be one
    /// that the call can give, leave what was lent as at entry, and answer nothing else. Refusals 7
    /// and 8 have a place where content can break, and no other answer has one.
    pub fn agree_lent<A: Answer, L: PartialEq + Debug>(
        &mut self,
        call: Call,
        input: &dyn Debug,
        entry: &L,
        proved: (A, &L),
        second: (A, &L),
    ) {
        if proved != second {
            fail(
                &format!("{call:?}: proved, second"),
                input,
                &proved,
                &second,
            );
        }
        let (answer, exit) = proved;
        let refusal = answer.refusal();
        if refusal != 0 {
            let meant = (answer.blank(), entry);
            if !call.gives(refusal) || (answer, exit) != meant {
                let what = format!("{call:?}: refusal {refusal} answered, as it must be");
                fail(&what, input, &proved, &meant);
            }
        }
        let broken_at = answer.broken_at();
        let placed = match refusal {
            7 | 8 => Content::some_breaks(refusal, broken_at.0),
            _ => broken_at == NOT_BROKEN,
        };
        if !placed {
            let what = format!("{call:?}: refusal, place that it cannot have");
            fail(&what, input, &refusal, &broken_at);
        }
        self.count(call, refusal);
    }

    /// Compares the proved answer with what the sender meant.
    pub fn expect<T: PartialEq + Debug>(&self, call: Call, input: &dyn Debug, found: T, meant: T) {
        if found != meant {
            fail(&format!("{call:?}: answered, sent"), input, &found, &meant);
        }
    }

    /// A call must refuse 10 if there is a fault, and for nothing else.
    pub fn expect_faults(&mut self, call: Call, input: &dyn Debug, refusal: u8, faults: &Faults) {
        self.expect(call, &(faults, input), refusal == 10, !faults.is_empty());
        if faults.len() == 1 {
            for &fault in faults {
                *self.faults.entry((call, fault)).or_default() += 1;
            }
        }
    }

    pub fn count(&mut self, call: Call, refusal: u8) {
        *self.answers.entry((call, refusal)).or_default() += 1;
    }

    /// Counts that content broke where the sender knew.
    pub fn mark_break(&mut self, content: Content, refusal: u8, BrokenAt(at): BrokenAt) {
        *self.breaks.entry((content, refusal, at)).or_default() += 1;
    }

    /// Counts that something happened which a run must reach.
    pub fn mark(&mut self, mark: &'static str, happened: bool) {
        *self.marks.entry(mark).or_default() += u64::from(happened);
    }

    fn calls(&self, call: Call) -> u64 {
        let of_call = self.answers.iter().filter(|((of, _), _)| *of == call);
        of_call.map(|(_, count)| count).sum()
    }

    /// The answers and marks, one line each.
    pub fn print(&self) {
        for (call, name, _) in CALLS {
            let answers: Vec<_> = self
                .answers
                .iter()
                .filter(|((of, _), _)| *of == call)
                .map(|((_, refusal), count)| format!("{refusal}: {count}"))
                .collect();
            println!("{name:15} {}", answers.join(", "));
        }
        for (call, name, _) in CALLS {
            for ((_, fault), count) in self.faults.iter().filter(|((of, _), _)| *of == call) {
                println!("{}: {count}", fault_line(name, *fault));
            }
        }
        for content in Content::ALL {
            for refusal in [7, 8] {
                let places = (content, refusal, 0)..=(content, refusal, u8::MAX);
                let counts = self.breaks.range(places).map(|(_, count)| count);
                let (places, least) = (counts.clone().count(), counts.min().unwrap_or(&0));
                let line = break_line(content, refusal);
                println!("{line} at {places} places, at each {least} times or more");
            }
        }
        for (mark, count) in &self.marks {
            println!("{mark}: {count}");
        }
    }

    /// What a run must reach and this one did not.
    pub fn missing(&self, listings: bool) -> Vec<String> {
        let mut missing = Vec::new();
        for (call, name, refusals) in CALLS {
            if call == Call::Listing && !listings {
                continue;
            }
            for refusal in refusals.iter().chain(&[0]) {
                if !self.answers.contains_key(&(call, *refusal)) {
                    missing.push(format!("{name}: {refusal}"));
                }
            }
            for fault in Fault::ALL {
                if fault.refused_by(call) && !self.faults.contains_key(&(call, fault)) {
                    missing.push(fault_line(name, fault));
                }
            }
        }
        for (content, refusal, at) in broken::places() {
            if !self.breaks.contains_key(&(content, refusal, at)) {
                missing.push(format!("{} at {at}", break_line(content, refusal)));
            }
        }
        let marks = self.marks.iter().filter(|(_, &count)| count == 0);
        missing.extend(marks.map(|(mark, _)| mark.to_string()));
        missing
    }

    /// The last line: how many calls were compared.
    pub fn summary(&self) -> String {
        let counts: Vec<_> = CALLS
            .iter()
            .map(|&(call, name, _)| format!("{name} {}", self.calls(call)))
            .collect();
        let all: u64 = self.answers.values().sum();
        format!("compared {all} calls: {}", counts.join(", "))
    }
}
