//! Catalogues and lives.

use std::collections::BTreeSet;

use crate::classes;
use crate::records;
use crate::Trial;

/// A catalogue and lives.
#[derive(Clone)]
pub struct Lists {
    pub catalogue: Vec<u16>,
    pub lives: Vec<u16>,
}

/// Few enough classes that records match.
pub const CLASSES: [u8; 5] = [1, 2, 31, 33, 63];

/// The kinds of events, the ordinary ones most often.
const KINDS: [u16; 8] = [1, 1, 1, 1, 2, 2, 3, 0];

impl Trial {
    pub fn lists(&mut self) -> Lists {
        let catalogue = (0..2048).map(|_| self.entry(&KINDS)).collect();
        let lives = [0, 0, 1, 15, 60, 10_080];
        let lives = (0..16).map(|_| self.random.pick(&lives)).collect();
        Lists { catalogue, lives }
    }

    /// An entry of a catalogue, of one of these kinds.
    fn entry(&mut self, kinds: &[u16]) -> u16 {
        let random = &mut self.random;
        let kind = random.pick(kinds);
        let class = match kind {
            1 | 2 => random.pick(&CLASSES).into(),
            _ => 0,
        };
        (random.bits(1) << 8) as u16 | kind << 6 | class
    }

    /// Lists of which one is often malformed.
    pub fn damaged(&mut self, lists: &Lists) -> Lists {
        let Lists {
            mut catalogue,
            mut lives,
        } = lists.clone();
        let random = &mut self.random;
        match random.below(6) {
            0 => catalogue.truncate(random.index(2049)),
            1 => catalogue.push(0),
            2 => lives.truncate(random.index(17)),
            3 => lives.push(0),
            4 => lives[random.index(16)] = random.pick(&[10_081, 10_080, 0xFFFF]),
            _ => {
                let (kind, class) = (random.below(4) as u16, random.pick(&[0, 0, 1, 63]));
                let rest = random.pick(&[0, 0, 1 << 8, 1 << 9, 1 << 15]);
                catalogue[random.index(2048)] = rest | kind << 6 | class;
            }
        }
        Lists { catalogue, lives }
    }

    /// A well-formed catalogue of which about half the entries are others. In most, the first
    /// events of the records of a table keep a class or gain one.
    pub fn changed(&mut self, catalogue: &[u16], table: &[u8]) -> Vec<u16> {
        let mut first_events = BTreeSet::new();
        if !self.random.once_in(6) {
            first_events.extend(records::used(table).map(|record| records::event_of(record)));
        }
        let entry = |(event, &entry)| match (self.random.once_in(2), first_events.contains(&event))
        {
            (true, _) => entry,
            (_, true) => self.entry(&[1, 2]),
            _ => self.entry(&KINDS),
        };
        (0..).zip(catalogue).map(entry).collect()
    }

    /// An event of one of these kinds.
    pub fn event(&mut self, lists: &Lists, kinds: &[u16]) -> u16 {
        loop {
            let event = self.random.short(11);
            let kind = classes::kind(&lists.catalogue, event);
            if kind.is_some_and(|kind| kinds.contains(&kind)) {
                return event;
            }
        }
    }
}
