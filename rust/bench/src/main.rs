//! Times the proved library beside the second program: the same calls on the same structs and
//! slices, the two in turn, the least of several repetitions.

#![deny(warnings)]

use std::env;
use std::hint::black_box;
use std::io;
use std::path::{Path, PathBuf};
use std::process::ExitCode;

use input::UNIT;
use proved::{Assembler, AssemblerAnswer, RdsReceived, RdsRun, SystemFields, WordFields};
use timing::{both, measure};

mod input;
mod listings;
mod tables;
mod timing;

const USAGE: &str = "bench [--listing PATH --listing2 PATH]";

/// 37-bit words and system words, both ways.
fn bench_words(words: &[u64]) {
    both!("word parse", words, |word| side::word_parse(*word));
    let parsed = words.iter().map(|&word| calls::word_parse(word));
    let fields: Vec<WordFields> = parsed.map(|parsed| parsed.fields).collect();
    both!("word compose", &fields, |fields| {
        side::word_compose(*fields)
    });
    let words: Vec<u16> = (0..0x8000).collect();
    both!("system word read", &words, |word| side::system_read(*word));
    let read = words.iter().map(|&word| calls::system_read(word));
    let fields: Vec<SystemFields> = read.map(|reading| reading.fields).collect();
    both!("system word written", &fields, |fields| {
        side::system_write(*fields)
    });
}

/// The carriers, reading friendly and rough input, and writing.
fn bench_carriers(words: &[u64]) {
    let groups = input::groups(words);
    let rough = input::rough(&groups, &input::GROUP_FAULTS);
    both!("RDS group", &groups, |group| side::rds_read(group));
    both!("RDS group, one in four refused", &rough, |group| {
        side::rds_read(group)
    });
    bench_receive("RDS group received", &groups);
    bench_receive("RDS group received, one in four refused", &rough);
    both!("RDS group written", words, |word| {
        let mut out = [0; input::GROUP_BYTES];
        (side::rds_write(input::group_of(*word), &mut out), out)
    });

    let figs = input::figs(words);
    let rough = input::rough(&figs, &input::FIG_FAULTS);
    for (what, figs) in [
        ("FIG of 6 words", figs),
        ("FIG of 6 words, one in four refused", rough),
    ] {
        both!(what, &figs, |fig| {
            let mut words = [0; input::FIG_SYSTEM_WORDS];
            (side::fig_read(fig, &mut words), words)
        });
    }

    let fibs = input::fibs(words);
    let rough = input::rough(&fibs, &input::FIB_FAULTS);
    for (what, fibs) in [
        ("FIB of two FIGs", fibs),
        ("FIB of two FIGs, one in four refused", rough),
    ] {
        both!(what, &fibs, |fib| {
            let mut words = [0; input::FIG_SYSTEM_WORDS];
            let mut origins = [0; input::FIG_SYSTEM_WORDS];
            let reading = side::fib_read(fib, &mut words, &mut origins);
            (reading, words, origins)
        });
    }

    let unit_words = input::unit_words(2000);
    let units = input::units(&unit_words);
    let rough = input::rough(&units, &input::UNIT_FAULTS);
    for (what, units) in [
        ("DRM unit of 27 words", &units),
        ("DRM unit of 27 words, one in four refused", &rough),
    ] {
        both!(what, units, |unit| {
            let mut words = [0; input::UNIT_WORDS];
            (side::drm_read(unit, &mut words), words)
        });
    }
    both!("DRM unit of 27 words written", &unit_words, |words| {
        let mut out = [0; input::UNIT_BYTES];
        (side::drm_write(UNIT, words, &mut out), out)
    });
    both!("check word of 128 bytes", &units, |unit| {
        side::check_word(unit)
    });
}

/// Each group twice, through the repeat rule.
fn bench_receive(what: &str, groups: &[Vec<u8>]) {
    type Receive = fn(RdsRun, &[u8]) -> RdsReceived;
    let run = |receive: Receive| {
        let receive = black_box(receive);
        let mut run = RdsRun::default();
        let mut valid = 0;
        for group in groups {
            for _ in 0..2 {
                let received = receive(run, black_box(group));
                run = received.run;
                valid += u64::from(received.valid);
            }
        }
        black_box(valid);
    };
    measure(|| run(proved::rds_receive), || run(calls::rds_receive)).print(what, 2 * groups.len());
}

fn bench_assembler(what: &str, words: &[u64]) {
    type Step = fn(Assembler, u64) -> AssemblerAnswer;
    let run = |step: Step| {
        let step = black_box(step);
        let mut state = Assembler::default();
        let mut reports = 0;
        for &word in words {
            let answer = step(state, black_box(word));
            state = answer.next;
            reports += u64::from(answer.kind == 1);
            black_box(&answer.report);
        }
        black_box(reports);
    };
    measure(
        || run(proved::assembler_step),
        || run(calls::assembler_step),
    )
    .print(what, words.len());
}

fn bench_expiry() {
    let lives: Vec<(u32, i8, u16)> = (0..10_000)
        .map(|i| (i * 401, (i % 63) as i8 - 31, (i % 3 * 60) as u16))
        .collect();
    both!("expiry", &lives, |(minute, lto, life)| {
        side::expiry(*minute, *lto, *life)
    });
}

fn bench_listings(words: &[u64], listing: &Path, listing2: &Path) -> io::Result<()> {
    let (groups, figs) = (input::groups(words), input::figs(words));
    let units = input::units(&input::unit_words(500));
    let friendly = input::recording(&groups, &figs, &units);
    let rough = input::recording(
        &input::rough(&groups, &input::GROUP_FAULTS),
        &input::rough(&figs, &input::FIG_FAULTS),
        &input::rough(&units, &input::UNIT_FAULTS),
    );
    listings::bench("listing", &friendly, listing, listing2)?;
    listings::bench(
        "listing with losses and refusals",
        &rough,
        listing,
        listing2,
    )
}

/// What the program is called for.
enum Task {
    Scan,
    Times(Option<(PathBuf, PathBuf)>),
}

fn task() -> Option<Task> {
    let arguments: Vec<_> = env::args().skip(1).collect();
    match &arguments[..] {
        [] => Some(Task::Times(None)),
        [scan] if scan == listings::SCAN => Some(Task::Scan),
        [one, listing, two, listing2] if one == "--listing" && two == "--listing2" => {
            Some(Task::Times(Some((listing.into(), listing2.into()))))
        }
        _ => None,
    }
}

fn bench(programs: Option<(PathBuf, PathBuf)>) -> io::Result<()> {
    let reports = input::reports(10_000);
    let words = input::words(&reports);
    bench_words(&words);
    bench_carriers(&words);
    both!("report written", &reports, |(report, ci)| {
        let mut words = [0; input::MESSAGE_WORDS];
        (side::report_write(*report, *ci, &mut words), words)
    });
    bench_assembler("word through the assembler", &words);
    bench_assembler(
        "word through the assembler, with losses",
        &input::rough_words(&words),
    );
    bench_assembler(
        "word of multi-group messages through the assembler",
        &input::words(&input::multi_reports(10_000)),
    );
    bench_assembler(
        "word of multi-group messages through the assembler, one in four refused",
        &input::broken_words(&input::multi_reports(10_000)),
    );
    bench_assembler(
        "word of INTER-ROAD messages through the assembler",
        &input::words(&input::inter_road_reports(10_000)),
    );
    bench_expiry();
    tables::bench();
    match programs {
        Some((listing, listing2)) => bench_listings(&words, &listing, &listing2),
        None => Ok(()),
    }
}

fn main() -> ExitCode {
    let done = match task() {
        Some(Task::Scan) => listings::scan_input(),
        Some(Task::Times(programs)) => bench(programs),
        None => {
            eprintln!("{USAGE}");
            return ExitCode::FAILURE;
        }
    };
    match done {
        Ok(()) => ExitCode::SUCCESS,
        Err(error) => {
            println!("the listings could not be timed: {error}");
            ExitCode::FAILURE
        }
    }
}
