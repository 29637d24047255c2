//! The two listing programs.

use std::cell::Cell;
use std::fs::{self, File};
use std::io::{self, Read};
use std::path::Path;
use std::process::{self, Command, Stdio};
use std::{env, hint};

use crate::tables::scan;
use crate::timing::{least, measure_times, print_limit};

const REPETITIONS: usize = 20;
/// Bytes read at once, as by the listing programs.
const BUFFER: usize = 1 << 16;

/// What this program is called with to scan its standard input.
pub const SCAN: &str = "--scan";

/// Reads standard input to its end and scans it, as little as a listing can do.
pub fn scan_input() -> io::Result<()> {
    let mut input = io::stdin().lock();
    let mut buffer = vec![0; BUFFER];
    let mut sum = 0;
    loop {
        let count = input.read(&mut buffer)?;
        if count == 0 {
            hint::black_box(sum);
            return Ok(());
        }
        sum ^= scan(&buffer[..count]);
    }
}

fn run(program: &mut Command, recording: &Path) -> io::Result<()> {
    let status = program
        .stdin(File::open(recording)?)
        .stdout(Stdio::null())
        .status()?;
    match status.success() {
        true => Ok(()),
        false => Err(io::Error::other("a listing failed")),
    }
}

/// Times the two programs on a recording, and a plain scan of it.
pub fn bench(what: &str, bytes: &[u8], listing: &Path, listing2: &Path) -> io::Result<()> {
    let path = env::temp_dir().join(format!("bench-{}.recording", process::id()));
    fs::write(&path, bytes)?;
    let scanner = env::current_exe()?;
    let failure = Cell::new(None);
    let list = |program: &mut Command| {
        if let Err(error) = run(program, &path) {
            failure.set(Some(error));
        }
    };
    let times = measure_times(
        REPETITIONS,
        || list(&mut Command::new(listing)),
        || list(&mut Command::new(listing2)),
    );
    let limit = least(REPETITIONS, || list(Command::new(&scanner).arg(SCAN)));
    fs::remove_file(&path)?;
    if let Some(error) = failure.into_inner() {
        return Err(error);
    }
    let what = format!("{what} of {} bytes, a byte", bytes.len());
    times.print(&what, bytes.len());
    print_limit(&format!("a scan for the {what}"), limit, bytes.len());
    Ok(())
}
