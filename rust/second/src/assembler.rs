//! The assembler: words in, reports out.

use crate::content::{Content, MOST_PARTS};
use crate::report::Report;
use crate::word::{Head, Word, CONTENT_BITS};
use crate::Refusal;

/// The most later groups of an open message: the fourth always completes.
pub const MOST_TAKEN: usize = MOST_PARTS - 1;

/// A message of which the first group has come.
#[derive(Clone, Copy, Debug, PartialEq, Eq)]
pub struct Open {
    /// Continuity index.
    pub index: u8,
    pub head: Head,
    /// Groups still to come, as the last later group said; 0 before the second group.
    pub gsi: u8,
    /// Later groups taken.
    pub count: u8,
    pub contents: [u32; MOST_TAKEN],
}

/// The state between calls.
#[derive(Clone, Copy, Debug, Default, PartialEq, Eq)]
pub enum Assembler {
    #[default]
    Empty,
    Open(Open),
}

/// What one call answers.
#[derive(Clone, Copy, Debug, PartialEq, Eq)]
pub enum Answer {
    Nothing,
    Report(Report),
    Tuning(u64),
    Administration(u64),
    Refused(Refusal),
}

/// The next state and the answer.
#[derive(Clone, Copy, Debug, PartialEq, Eq)]
pub struct Step {
    pub next: Assembler,
    pub answer: Answer,
}

impl Open {
    /// Whether some calls reach it.
    fn is_reached(&self) -> bool {
        let count = usize::from(self.count);
        let turn = if count == 0 {
            self.gsi == 0
        } else {
            count <= MOST_TAKEN && self.gsi >= 1 && count + usize::from(self.gsi) <= MOST_PARTS
        };
        turn && matches!(self.index, 1..=6)
            && self.head.fits()
            && self.contents.iter().all(|&part| part < 1 << CONTENT_BITS)
            && self.contents[count..].iter().all(|&part| part == 0)
    }

    /// Whether a later group is the next one of this message.
    #[inline]
    fn awaits(&self, index: u8, second: bool, gsi: u8) -> bool {
        let turn = if second {
            self.count == 0
        } else {
            self.count > 0 && gsi + 1 == self.gsi
        };
        turn && index == self.index
    }
}

impl Assembler {
    /// Whether some calls, from the empty state, reach this state.
    #[inline]
    pub fn is_reached(&self) -> bool {
        match self {
            Self::Empty => true,
            Self::Open(open) => open.is_reached(),
        }
    }

    /// Takes one word.
    #[inline]
    pub fn step(self, word: u64) -> Step {
        let keep = |answer| Step { next: self, answer };
        let empty = |answer| Step {
            next: Self::Empty,
            answer,
        };
        if !self.is_reached() {
            return keep(Answer::Refused(Refusal::Unfit));
        }
        let (index, second, gsi, content) = match Word::read(word) {
            Err(refusal) => return keep(Answer::Refused(refusal)),
            Ok(Word::Tuning(word)) => return keep(Answer::Tuning(word)),
            Ok(Word::Administration(word)) => return keep(Answer::Administration(word)),
            Ok(Word::Index7(_)) => return keep(Answer::Refused(Refusal::Index7)),
            Ok(Word::Single {
                duration,
                diversion,
                head,
            }) => return empty(Answer::Report(Report::single(duration, diversion, head))),
            Ok(Word::First { index, head }) => {
                return Step {
                    next: Self::Open(Open {
                        index,
                        head,
                        gsi: 0,
                        count: 0,
                        contents: [0; MOST_TAKEN],
                    }),
                    answer: Answer::Nothing,
                }
            }
            Ok(Word::Later {
                index,
                second,
                gsi,
                content,
            }) => (index, second, gsi, content),
        };
        let mut open = match self {
            Self::Open(open) if open.awaits(index, second, gsi) => open,
            _ => return empty(Answer::Refused(Refusal::OutOfTurn)),
        };
        let count = usize::from(open.count);
        if gsi > 0 {
            open.contents[count] = content;
            open.count += 1;
            open.gsi = gsi;
            return Step {
                next: Self::Open(open),
                answer: Answer::Nothing,
            };
        }
        let mut parts = [0; MOST_PARTS];
        parts[..count].copy_from_slice(&open.contents[..count]);
        parts[count] = content;
        let report =
            Content::join(&parts[..=count]).and_then(|content| Report::multi(open.head, content));
        empty(match report {
            Ok(report) => Answer::Report(report),
            Err(refusal) => Answer::Refused(refusal),
        })
    }
}

#[cfg(test)]
mod tests {
    use super::*;

    /// The answers of calls from the empty state, and the last state.
    fn calls(words: &[u64]) -> (Vec<Answer>, Assembler) {
        let mut state = Assembler::Empty;
        let answers = words
            .iter()
            .map(|&word| {
                let step = state.step(word);
                state = step.next;
                step.answer
            })
            .collect();
        (answers, state)
    }

    const FIRST: u64 = 0x02_8991_01F4;
    const SECOND: u64 = 0x02_4350_2000;
    const SINGLE: u64 = 0x0B_5065_3039;

    #[test]
    fn worked_words() {
        let (answers, state) = calls(&[FIRST, SECOND]);
        assert_eq!(state, Assembler::Empty);
        assert_eq!(answers[0], Answer::Nothing);
        let Answer::Report(report) = answers[1] else {
            panic!("{:?}", answers[1]);
        };
        assert!(report.multi);
        assert_eq!(report.head.event, 401);
        assert_eq!(report.head.location, 500);
        assert_eq!((report.head.direction, report.head.extent), (0, 1));
        assert_eq!((report.diversion, report.duration), (0, 2));
        let items: Vec<_> = report
            .items
            .as_slice()
            .iter()
            .map(|item| (item.label, item.value))
            .collect();
        assert_eq!(items, [(3, 10), (0, 2)]);
    }

    #[test]
    fn out_of_turn() {
        let refused = Answer::Refused(Refusal::OutOfTurn);
        assert_eq!(calls(&[SECOND]), (vec![refused], Assembler::Empty));
        let (answers, state) = calls(&[FIRST, 0x03_4350_2000]);
        assert_eq!(answers[1], refused);
        assert_eq!(state, Assembler::Empty);
    }

    #[test]
    fn other_words_leave_the_state() {
        let tuning = 0x1F_0000_0000;
        let (answers, state) = calls(&[FIRST, tuning, 0, 0x07_0000_0000, 1 << 37, SECOND]);
        assert_eq!(answers[1], Answer::Tuning(tuning));
        assert_eq!(answers[2], Answer::Administration(0));
        assert_eq!(answers[3], Answer::Refused(Refusal::Index7));
        assert_eq!(answers[4], Answer::Refused(Refusal::Unfit));
        assert!(matches!(answers[5], Answer::Report(_)));
        assert_eq!(state, Assembler::Empty);
    }

    #[test]
    fn a_single_word_drops_an_open_message() {
        let (answers, state) = calls(&[FIRST, SINGLE, SECOND]);
        assert!(matches!(answers[1], Answer::Report(_)));
        assert_eq!(answers[2], Answer::Refused(Refusal::OutOfTurn));
        assert_eq!(state, Assembler::Empty);
    }

    #[test]
    fn refused_content_empties() {
        let (answers, state) = calls(&[FIRST, 0x02_4FFF_FFFF]);
        assert_eq!(answers[1], Answer::Refused(Refusal::Label15 { at: 0 }));
        assert_eq!(state, Assembler::Empty);
    }

    #[test]
    fn states_that_no_calls_reach() {
        let reached: Vec<_> = (0..=4)
            .flat_map(|count| (0..=4).map(move |gsi| (count, gsi)))
            .filter(|&(count, gsi)| {
                let state = Assembler::Open(Open {
                    index: 1,
                    head: Head::default(),
                    gsi,
                    count,
                    contents: [0; 3],
                });
                let step = state.step(SINGLE);
                if step.answer == Answer::Refused(Refusal::Unfit) {
                    assert_eq!(step.next, state);
                    false
                } else {
                    true
                }
            })
            .collect();
        assert_eq!(
            reached,
            [(0, 0), (1, 1), (1, 2), (1, 3), (2, 1), (2, 2), (3, 1)]
        );
    }
}
