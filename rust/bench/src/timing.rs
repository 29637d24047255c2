//! Both sides in turn, the least of several repetitions.

use std::hint::black_box;
use std::time::{Duration, Instant};

const REPETITIONS: usize = 200;

/// Least times of both sides.
#[derive(Clone, Copy)]
pub struct Times {
    pub ours: Duration,
    pub second: Duration,
}

impl Times {
    /// Prints a line: nanoseconds for each of `count` pieces, and the ratio.
    pub fn print(self, what: &str, count: usize) {
        println!(
            "{what}: ours {:.1} ns, second {:.1} ns, ratio {:.2}",
            each(self.ours, count),
            each(self.second, count),
            self.ours.as_secs_f64() / self.second.as_secs_f64()
        );
    }
}

fn each(time: Duration, count: usize) -> f64 {
    time.as_nanos() as f64 / count as f64
}

fn time(call: &mut dyn FnMut()) -> Duration {
    let start = Instant::now();
    call();
    start.elapsed()
}

/// The least of so many repetitions.
pub fn measure_times(
    repetitions: usize,
    mut ours: impl FnMut(),
    mut second: impl FnMut(),
) -> Times {
    let mut least = Times {
        ours: Duration::MAX,
        second: Duration::MAX,
    };
    for _ in 0..repetitions {
        least.ours = least.ours.min(time(&mut ours));
        least.second = least.second.min(time(&mut second));
    }
    least
}

pub fn measure(ours: impl FnMut(), second: impl FnMut()) -> Times {
    measure_times(REPETITIONS, ours, second)
}

/// Times a call on each of these inputs, and prints a line for one call.
pub fn time_calls<I, A>(what: &str, inputs: &[I], ours: fn(&I) -> A, second: fn(&I) -> A) {
    let run = |call: fn(&I) -> A| {
        let call = black_box(call);
        for input in inputs {
            black_box(call(black_box(input)));
        }
    };
    measure(|| run(ours), || run(second)).print(what, inputs.len());
}

/// Prints the time that no program can do without.
pub fn print_limit(what: &str, time: Duration, count: usize) {
    println!("limit, {what}: {:.1} ns", each(time, count));
}

/// The least of so many repetitions of one thing.
pub fn least(repetitions: usize, mut call: impl FnMut()) -> Duration {
    let times = (0..repetitions).map(|_| time(&mut call));
    times.min().unwrap_or_default()
}

/// Times the same call of `side`, which is either side, on each of these inputs.
macro_rules! both {
    ($what:expr, $inputs:expr, |$input:pat_param| $call:expr) => {
        $crate::timing::time_calls(
            $what,
            $inputs,
            |$input| {
                use proved as side;
                $call
            },
            |$input| {
                use calls as side;
                $call
            },
        )
    };
}

pub(crate) use both;
