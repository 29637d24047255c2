//! Content that is refused (7, 8): where it can break, and messages and records of which the sender
//! knows where it does.

use proved::{AssemblerAnswer, TableReading};
use sender::{Break, REAL_BITS};

use crate::lists::Lists;
use crate::records;
use crate::tally::Call;
use crate::Trial;

/// Content by where it stands.
#[derive(Clone, Copy, Debug, PartialEq, Eq, PartialOrd, Ord)]
pub enum Content {
    Home,
    InterRoad,
    /// In a record of a location at home.
    Record,
    /// In a record of a foreign location, which stands elsewhere in it.
    ForeignRecord,
}

impl Content {
    pub const ALL: [Self; 4] = [
        Self::Home,
        Self::InterRoad,
        Self::Record,
        Self::ForeignRecord,
    ];

    pub fn name(self) -> &'static str {
        match self {
            Self::Home => "a message at home",
            Self::InterRoad => "an INTER-ROAD message",
            Self::Record => "a record at home",
            Self::ForeignRecord => "a record of a foreign location",
        }
    }

    /// Bits before the items.
    fn before(self) -> usize {
        match self {
            Self::InterRoad => REAL_BITS,
            _ => 0,
        }
    }

    /// Whether content can break with this refusal at this bit.
    pub fn some_breaks(refusal: u8, at: u8) -> bool {
        Self::ALL.iter().any(|content| content.breaks(refusal, at))
    }

    /// Whether this one can.
    ///
    /// Items take 4, 7, 9, 12, 15 or 20 bits, so those before the break take any number but 1, 2,
    /// 3, 5, 6 and 10. Label 15 stands where four bits or more are left. A label or a value does
    /// not fit where 1 to 19 are: in the last group, of one to four.
    pub fn breaks(self, refusal: u8, at: u8) -> bool {
        match (refusal, self) {
            (7, Self::InterRoad) => {
                matches!(at, 16 | 20 | 23..=25 | 27 | 37..=55 | 65..=83 | 93..=111)
            }
            (7, _) => matches!(at, 9 | 11..=27 | 37..=55 | 65..=83 | 93..=111),
            (8, Self::InterRoad) => matches!(at, 16 | 20 | 23..=25 | 27..=108),
            (8, _) => matches!(at, 0 | 4 | 7..=9 | 11..=108),
            _ => false,
        }
    }
}

/// Content, the refusal with which it breaks, and the bit.
pub type Place = (Content, u8, u8);

/// Every place at which content can break.
pub fn places() -> Vec<Place> {
    let mut places = Vec::new();
    for content in Content::ALL {
        for refusal in [7, 8] {
            let bits = (0..=u8::MAX).filter(|&at| content.breaks(refusal, at));
            places.extend(bits.map(|at| (content, refusal, at)));
        }
    }
    places
}

impl Trial {
    /// Every break of every content once.
    pub fn every_break(&mut self) {
        let lists = self.lists();
        for content in Content::ALL {
            for broken in Break::all(content.before()) {
                self.break_content(content, &broken, &lists);
            }
        }
    }

    /// Any break of any content.
    pub fn any_break(&mut self, lists: &Lists) {
        let content = self.random.pick(&Content::ALL);
        let broken = Break::random(&mut self.random, content.before());
        self.break_content(content, &broken, lists);
    }

    /// Content that breaks so must be refused at just that place, with nothing else answered.
    fn break_content(&mut self, content: Content, broken: &Break, lists: &Lists) {
        match content {
            Content::Home | Content::InterRoad => self.break_message(broken),
            Content::Record | Content::ForeignRecord => {
                self.break_record(content == Content::Record, broken, lists);
            }
        }
        self.tally
            .mark_break(content, broken.refusal(), broken.broken_at());
    }

    /// The last word of the message is refused, and the others give nothing yet.
    fn break_message(&mut self, broken: &Break) {
        let words = broken.words(&mut self.random);
        let mut answer = AssemblerAnswer::default();
        for &word in &words {
            let found = (answer.kind, answer.refusal);
            self.tally
                .expect(Call::AssemblerStep, &words, found, (0, 0));
            answer = self.step(answer.next, word);
        }
        let meant = AssemblerAnswer {
            refusal: broken.refusal(),
            broken_at: broken.broken_at(),
            ..AssemblerAnswer::default()
        };
        self.tally
            .expect(Call::AssemblerStep, &words, answer, meant);
    }

    /// The record is refused in a table, and alone.
    fn break_record(&mut self, at_home: bool, broken: &Break, lists: &Lists) {
        let count = 1 + self.random.index(3);
        let place = self.random.index(count);
        let mut table: Vec<_> = (0..count).map(|_| self.record(1, lists)).collect();
        let record = &mut table[place];
        records::set_content(record, &broken.parts(&mut self.random));
        (record[32], record[33]) = (record[31], record[3]);
        if !at_home {
            record[32 + self.random.index(2)] ^= 1;
        }
        let answer = self.read_at(&table.concat(), place);
        let meant = TableReading {
            refusal: broken.refusal(),
            broken_at: broken.broken_at(),
            ..TableReading::default()
        };
        self.tally
            .expect(Call::TableRead, &(table, place), answer, meant);
    }
}
