//! Reports of a few events at one place, and tables of them.

use crate::common::{head, multi, stored, Table};
use second::report::Report;
use second::table::{Taken, RECORD};
use second::Refusal;

/// Ordinary of classes 5, 9 and 7, cancelling of class 9, null. Events 300 and 1000 are unknown.
pub const EVENTS: [(usize, u16); 5] = [
    (201, 0x45),
    (641, 0x49),
    (101, 0x47),
    (2028, 0x89),
    (2047, 0xC0),
];
pub const LOCATION: u16 = 500;
/// The expiry of what is stored by [`Table::take`].
pub const EXPIRY: u32 = 160;

/// A single-group report.
pub fn single(event: u16) -> Report {
    Report::single(0, 0, head(event, LOCATION))
}

/// A report with additional events.
pub fn with(event: u16, additional: &[u16]) -> Report {
    let pairs: Vec<_> = additional.iter().map(|&event| (9, event)).collect();
    multi(head(event, LOCATION), 0, &pairs)
}

/// A table of these reports and one free record. Each was stored in a table of its own, so that
/// none matched another.
pub fn table(reports: &[Report]) -> Table {
    let mut table = Table::new(reports.len() + 1, &EVENTS);
    for (record, report) in table.bytes.chunks_mut(RECORD).zip(reports) {
        let mut alone = Table::new(1, &EVENTS);
        assert_eq!(alone.take(report), stored(0, 0));
        record.copy_from_slice(alone.record(0));
    }
    table
}

/// A take that stored nothing.
pub fn freed(expired: usize, matched: usize) -> Result<Taken, Refusal> {
    Ok(Taken {
        expired,
        matched,
        ..Taken::default()
    })
}
