//! Compares the second program with the proved library, call by call, on random inputs, and both
//! with what a plain sender meant.

#![deny(warnings)]

use std::env;
use std::process::ExitCode;

use listings::Programs;
use sender::random::Random;
use tally::Tally;

mod broken;
mod carriers;
mod classes;
mod faults;
mod fibs;
mod fields;
mod full;
mod listings;
mod lists;
mod rds;
mod records;
mod renewals;
mod reports;
mod stored;
mod tables;
mod takes;
mod tally;
mod transmissions;
mod words;

const SEED: u64 = 14819;
const ROUNDS: u64 = 300;
const USAGE: &str = "compare [--seed S] [--rounds N] [--verbose] [--listing PATH --listing2 PATH]";

struct Trial {
    random: Random,
    tally: Tally,
}

impl Trial {
    /// Some calls of every kind.
    fn round(&mut self) {
        let mut times = |count: u64, call: fn(&mut Self)| (0..count).for_each(|_| call(self));
        times(400, Self::word_parse);
        times(400, Self::word_compose);
        times(200, |trial| {
            let word = trial.random.number() as u16;
            trial.system_read(word);
        });
        times(200, Self::system_write);
        times(300, Self::rds_read);
        times(200, Self::rds_write);
        times(40, Self::rds_receive);
        times(20, Self::rds_copies);
        times(400, Self::report_write);
        times(40, Self::assembler_walk);
        times(600, Self::assembler_state);
        times(600, Self::fig_read);
        times(900, Self::fib_read);
        times(100, Self::fib_past);
        times(200, Self::fib_damaged);
        times(200, Self::fib_random);
        times(600, Self::drm_read);
        times(300, Self::drm_write);
        times(50, Self::check_word);
        times(100, Self::expiry);
        times(20, Self::transmission);
        let lists = self.lists();
        for _ in 0..200 {
            self.any_break(&lists);
        }
        for _ in 0..200 {
            self.record_byte(&lists);
        }
        for _ in 0..80 {
            self.table_walk(&lists);
        }
        for _ in 0..20 {
            self.table_run(&lists);
        }
        for _ in 0..40 {
            self.stored(&lists);
        }
        for _ in 0..40 {
            self.full_table(&lists);
        }
    }
}

struct Options {
    seed: u64,
    rounds: u64,
    verbose: bool,
    programs: Option<Programs>,
}

fn options() -> Option<Options> {
    let mut arguments = env::args().skip(1);
    let (mut seed, mut rounds, mut verbose) = (SEED, ROUNDS, false);
    let (mut proved, mut second) = (None, None);
    while let Some(argument) = arguments.next() {
        match argument.as_str() {
            "--seed" => seed = arguments.next()?.parse().ok()?,
            "--rounds" => rounds = arguments.next()?.parse().ok()?,
            "--verbose" => verbose = true,
            "--listing" => proved = Some(arguments.next()?.into()),
            "--listing2" => second = Some(arguments.next()?.into()),
            _ => return None,
        }
    }
    let programs = match (proved, second) {
        (Some(proved), Some(second)) => Some(Programs { proved, second }),
        (None, None) => None,
        _ => return None,
    };
    Some(Options {
        seed,
        rounds,
        verbose,
        programs,
    })
}

fn main() -> ExitCode {
    let Some(options) = options() else {
        eprintln!("{USAGE}");
        return ExitCode::FAILURE;
    };
    println!("seed {}, rounds {}", options.seed, options.rounds);
    let mut trial = Trial {
        random: Random::new(options.seed),
        tally: Tally::default(),
    };
    (0..=u16::MAX).for_each(|word| {
        trial.system_read(word);
    });
    trial.fig_faults();
    trial.fib_headers();
    trial.fib_rooms();
    trial.drm_faults();
    trial.every_break();
    for _ in 0..options.rounds {
        trial.round();
    }
    if let Some(programs) = &options.programs {
        if let Err(error) = trial.listings(programs, options.rounds as usize + 1) {
            println!("the listings could not be compared: {error}");
            return ExitCode::FAILURE;
        }
    }
    if options.verbose {
        trial.tally.print();
    }
    let missing = trial.tally.missing(options.programs.is_some());
    if !missing.is_empty() {
        println!("never reached: {}", missing.join("; "));
        return ExitCode::FAILURE;
    }
    println!("{}", trial.tally.summary());
    ExitCode::SUCCESS
}
