//! The report, and its writing as words.

use crate::content::{Content, Items};
use crate::inter_road::{is_flt, Location};
use crate::word::{Head, Word};
use crate::{require, Refusal};

/// The most words of a report.
pub const MOST_WORDS: usize = 5;

/// Label of a duration.
const DURATION: u8 = 0;
/// Label of a control code.
const CONTROL: u8 = 1;
/// The control code that sets the diversion.
const DIVERSION: u16 = 5;

/// What one message says.
#[derive(Clone, Copy, Debug, PartialEq, Eq)]
pub struct Report {
    /// Whether it takes two to five groups.
    pub multi: bool,
    pub head: Head,
    /// The location in the table that the head's FLT code names; 0 if not INTER-ROAD.
    pub real_location: u16,
    pub diversion: u8,
    pub duration: u8,
    pub items: Items,
}

/// The duration and diversion that items give.
#[inline]
fn told(items: &Items) -> (u8, u8) {
    let mut duration = None;
    let mut diversion = 0;
    for item in items.as_slice() {
        if item.label == DURATION {
            duration.get_or_insert(item.value as u8);
        } else if item.label == CONTROL && item.value == DIVERSION {
            diversion = 1;
        }
    }
    (duration.unwrap_or(0), diversion)
}

impl Report {
    /// The report of a single-group message.
    #[inline]
    pub fn single(duration: u8, diversion: u8, head: Head) -> Self {
        Self {
            multi: false,
            head,
            real_location: 0,
            diversion,
            duration,
            items: Items::NONE,
        }
    }

    /// The report of a first group and its content; refuses 7 and 8 as [`Content::read`].
    #[inline]
    pub fn multi(head: Head, content: Content) -> Result<Self, Refusal> {
        let (real_location, items) = if is_flt(head.location) {
            content.read_foreign()?
        } else {
            (0, content.read()?)
        };
        Ok(Self::of_items(head, real_location, items))
    }

    /// The multi-group report of these items.
    #[inline]
    pub fn of_items(head: Head, real_location: u16, items: Items) -> Self {
        let (duration, diversion) = told(&items);
        Self {
            multi: true,
            head,
            real_location,
            diversion,
            duration,
            items,
        }
    }

    /// Whether it is INTER-ROAD: of several groups and with an FLT code.
    #[inline]
    pub const fn is_inter_road(&self) -> bool {
        self.multi && is_flt(self.head.location)
    }

    /// Its location as a service of this country and table number sends it.
    #[inline]
    pub const fn location(&self, country: u8, ltn: u8) -> Location {
        if self.is_inter_road() {
            Location::foreign(self.head.location, self.real_location)
        } else {
            Location {
                country,
                ltn,
                code: self.head.location,
            }
        }
    }

    /// The number of groups it takes and its content; refuses 9 whatever a writer refuses,
    /// the continuity index apart.
    #[inline]
    pub fn pack(&self) -> Result<(u8, Content), Refusal> {
        let fit = self.head.fits() && self.diversion <= 1 && self.duration <= 7;
        require(fit, Refusal::Unfit)?;
        let inter_road = self.is_inter_road();
        require(inter_road || self.real_location == 0, Refusal::Unfit)?;
        if self.multi {
            let content = if inter_road {
                Content::write_foreign(self.real_location, &self.items)?
            } else {
                Content::write(&self.items)?
            };
            let agrees = told(&self.items) == (self.duration, self.diversion);
            require(agrees, Refusal::Unfit)?;
            Ok((1 + content.parts, content))
        } else {
            require(self.items == Items::NONE, Refusal::Unfit)?;
            Ok((1, Content { parts: 0, bits: 0 }))
        }
    }

    /// Writes the report in the fewest words and gives their number. The continuity index is
    /// 1 to 6 for a multi-group report, 0 for a single. Refuses 9 what is unfit, 15 too small
    /// a buffer.
    #[inline]
    pub fn write(&self, index: u8, out: &mut [u64]) -> Result<usize, Refusal> {
        let (groups, content) = self.pack()?;
        let fit = if self.multi {
            matches!(index, 1..=6)
        } else {
            index == 0
        };
        require(fit, Refusal::Unfit)?;
        let out = out.get_mut(..usize::from(groups)).ok_or(Refusal::Buffer)?;
        let head = self.head;
        if !self.multi {
            out[0] = Word::Single {
                duration: self.duration,
                diversion: self.diversion,
                head,
            }
            .write()?;
            return Ok(1);
        }
        out[0] = Word::First { index, head }.write()?;
        for (i, word) in (0..).zip(&mut out[1..]) {
            *word = Word::Later {
                index,
                second: i == 0,
                gsi: content.parts - 1 - i,
                content: content.part(i),
            }
            .write()?;
        }
        Ok(out.len())
    }
}

#[cfg(test)]
mod tests {
    use super::*;
    use crate::content::Item;

    fn worked() -> Report {
        let mut items = Items::NONE;
        items.count = 2;
        items.places[0] = Item {
            label: 3,
            value: 10,
        };
        items.places[1] = Item { label: 0, value: 2 };
        Report {
            multi: true,
            head: Head {
                direction: 0,
                extent: 1,
                event: 401,
                location: 500,
            },
            real_location: 0,
            diversion: 0,
            duration: 2,
            items,
        }
    }

    #[test]
    fn worked_reports() {
        let mut out = [0; 5];
        assert_eq!(worked().write(2, &mut out), Ok(2));
        assert_eq!(out, [0x02_8991_01F4, 0x02_4350_2000, 0, 0, 0]);
        let single = Report::single(
            3,
            0,
            Head {
                direction: 1,
                extent: 2,
                event: 101,
                location: 12345,
            },
        );
        assert_eq!(single.write(0, &mut out), Ok(1));
        assert_eq!(out[0], 0x0B_5065_3039);
    }

    #[test]
    fn what_a_writer_refuses() {
        let unfit = |change: fn(&mut Report)| {
            let mut report = worked();
            change(&mut report);
            report.write(2, &mut [0; 5]) == Err(Refusal::Unfit)
        };
        assert!(unfit(|r| r.head.direction = 2));
        assert!(unfit(|r| r.head.extent = 8));
        assert!(unfit(|r| r.head.event = 2048));
        assert!(unfit(|r| r.duration = 3));
        assert!(unfit(|r| r.diversion = 1));
        assert!(unfit(|r| r.items.places[0].value = 32));
        assert!(unfit(|r| r.items.places[0].label = 15));
        assert!(unfit(|r| r.items.places[2].value = 1));
        assert!(unfit(|r| r.items.count = 3));
        assert!(unfit(|r| r.items.count = 29));
        assert!(unfit(|r| r.multi = false));
        let over = |r: &mut Report| {
            r.items.count = 6;
            r.items.places[2..6].fill(Item {
                label: 10,
                value: 0xFFFF,
            });
            r.items.places[5].label = 14;
            r.items.places[5].value = 0;
        };
        assert!(!unfit(over));
        assert!(unfit(|r| {
            r.items.count = 7;
            r.items.places[2..7].fill(Item {
                label: 10,
                value: 0xFFFF,
            });
        }));
        assert_eq!(worked().write(0, &mut [0; 5]), Err(Refusal::Unfit));
        assert_eq!(worked().write(7, &mut [0; 5]), Err(Refusal::Unfit));
        assert_eq!(worked().write(2, &mut [0; 1]), Err(Refusal::Buffer));
    }
}
