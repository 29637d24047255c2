//! FIGs and DRM data units.

use crate::fields::Fields;
use crate::rds::BYTE;
use crate::tally::Call;
use crate::Trial;
use proved::{DrmReading, DrmUnit, Fig, FigReading, Written};
use sender::{Break, Message, HEADED_WORDS, UNIT_WORDS};

/// What stands in a lent word before a call.
pub const WORD: u64 = 0xA5A5_5A5A_0F0F_F0F0;
/// The application identification of ALERT-C.
const ALERT_C: u16 = 0xCD46;

/// Lent cells of which the first ones were filled.
pub fn filled<T: Copy>(cells: &[T], entry: &[T]) -> Vec<T> {
    [cells, &entry[cells.len()..]].concat()
}

/// What a writer of these bytes answers and leaves in what it was lent: 15 if they have no room.
fn written(bytes: &[u8], mut lent: Vec<u8>) -> (Written, Vec<u8>) {
    let mut written = Written {
        count: 0,
        refusal: 15,
    };
    if let Some(start) = lent.get_mut(..bytes.len()) {
        start.copy_from_slice(bytes);
        written = Written {
            count: bytes.len(),
            refusal: 0,
        };
    }
    (written, lent)
}

impl Trial {
    /// Damages bytes: a bit or a byte, their end, or all of them.
    pub fn damage_bytes(&mut self, bytes: &mut Vec<u8>, most: usize) {
        let random = &mut self.random;
        let at = random.index(bytes.len().max(1));
        if random.once_in(20) {
            // A length that is right but for a carry.
            bytes.resize(bytes.len() + random.pick(&[256, 65_536]), 0);
        }
        match random.below(6) {
            0 => bytes.truncate(at),
            1 => bytes.resize(random.index(most), 0),
            2 => bytes
                .iter_mut()
                .for_each(|byte| *byte = random.number() as u8),
            3 if at < bytes.len() => bytes[at] = random.number() as u8,
            4 if !bytes.is_empty() => *bytes.last_mut().unwrap() ^= 1 << random.below(8),
            _ if at < bytes.len() => bytes[at] ^= 1 << random.below(8),
            _ => {}
        }
    }

    pub fn fig_read(&mut self) {
        let fig = Fig {
            d1: self.random.byte(1),
            tcid: self.random.byte(3),
        };
        let (most, width) = sender::fig_words(fig.d1);
        let count = 1 + self.random.index(most);
        let words: Vec<_> = (0..count).map(|_| self.random.bits(width as u32)).collect();
        let mut bytes = sender::fig(fig, &words);
        let whole = !self.random.once_in(2);
        if !whole {
            self.damage_fig(&mut bytes);
        }
        let room = if self.random.once_in(4) {
            self.random.index(count + 2)
        } else {
            16
        };
        let meant = whole && room >= count;
        self.read_fig(&bytes, room, meant.then_some((fig, &words)));
    }

    /// One reading on both sides, with what was sent if that must be read.
    pub fn read_fig(&mut self, bytes: &[u8], room: usize, sent: Option<(Fig, &[u64])>) {
        let entry = vec![WORD; room];
        let (mut a, mut b) = (entry.clone(), entry.clone());
        let proved = proved::fig_read(bytes, &mut a);
        let second = calls::fig_read(bytes, &mut b);
        let input = (bytes, room);
        self.tally
            .agree_lent(Call::FigRead, &input, &entry, (proved, &a), (second, &b));
        if let Some((fig, words)) = sent {
            let reading = FigReading {
                count: words.len(),
                fig,
                refusal: 0,
            };
            let meant = (reading, filled(words, &entry));
            self.tally.expect(Call::FigRead, &input, (proved, a), meant);
        }
    }

    /// Every length with every mix of faults.
    pub fn fig_faults(&mut self) {
        for length in 0..=33_usize {
            for faults in 0..1 << 7 {
                let fault = |i: u32| faults >> i & 1;
                let mut fig = vec![0; length];
                let count = (length + fault(0)).wrapping_sub(1 + fault(1));
                let first = [(5 + fault(2)) << 5 | count & 31, 0x29 + fault(3)];
                for (byte, first) in fig.iter_mut().zip(first) {
                    *byte = first as u8;
                }
                if length > 1 {
                    fig[1] |= (fault(4) << 7 | fault(5) << 6) as u8;
                }
                if length > 2 {
                    fig[length - 1] = fault(6) as u8;
                }
                for room in [0, 14] {
                    self.read_fig(&fig, room, None);
                }
            }
        }
    }

    fn damage_fig(&mut self, fig: &mut Vec<u8>) {
        if self.random.once_in(4) {
            // Any data length, with the count to it.
            let data = self.random.index(30);
            fig.resize(2 + data, 0);
            fig[0] = fig[0] & 0xE0 | (1 + data) as u8 & 31;
        }
        match self.random.below(8) {
            0 => fig[1] ^= 0x40,
            1 => fig[1] ^= 0x80,
            2 => fig[1] ^= 1 << self.random.below(3),
            3 => fig[0] ^= 1 << self.random.below(8),
            4 => {}
            _ => self.damage_bytes(fig, 33),
        }
        if self.random.once_in(3) && fig.len() > 1 {
            fig[0] = fig[0] & 0xE0 | (fig.len() - 1) as u8 & 31;
        }
    }

    /// Words of whole messages with other words of 37 bits among them, at most so many.
    fn whole_words(&mut self, most: usize) -> Vec<u64> {
        let random = &mut self.random;
        let most = random.index(most + 1);
        let mut words = Vec::new();
        loop {
            let mut message = Message::random(random).words;
            if random.once_in(5) {
                let tuning = 1 << 36 | random.bits(36);
                let other = random.pick(&[tuning, tuning >> 5]);
                message.insert(random.index(message.len() + 1), other);
            }
            if words.len() + message.len() > most {
                return words;
            }
            words.extend(message);
        }
    }

    pub fn drm_read(&mut self) {
        let unit = sender::random_unit(&mut self.random);
        let most = if unit.tmchi == 0 {
            UNIT_WORDS
        } else {
            HEADED_WORDS
        };
        let least = 1 - usize::from(unit.tmchi);
        let count = self.random.index(most + 1).max(least);
        let words: Vec<_> = (0..count).map(|_| self.random.bits(37)).collect();
        let random = &mut self.random;
        let rfa = random.byte(1);
        let ua = match random.below(8) {
            0 => Some(ALERT_C),
            1 => Some(random.odd(ALERT_C.into(), u16::BITS) as u16),
            _ => None,
        };
        let mut bytes = sender::unit(&unit, &words, ua, rfa);
        let mut whole = matches!(ua, None | Some(ALERT_C)) || unit.tmchi == 0;
        whole &= bytes.len() <= 126;
        let damaged = random.once_in(2);
        if damaged {
            whole = false;
            self.damage_unit(&mut bytes);
        }
        let mut bytes = sender::checked(bytes);
        if damaged && self.random.once_in(3) {
            self.damage_bytes(&mut bytes, 132);
        }
        let room = if self.random.once_in(5) {
            self.random.index(count + 2)
        } else {
            28
        };
        let meant = whole && room >= count;
        self.read_unit(&bytes, room, meant.then_some((unit, &words)));
    }

    /// One reading on both sides, with what was sent if that must be read.
    pub fn read_unit(&mut self, bytes: &[u8], room: usize, sent: Option<(DrmUnit, &[u64])>) {
        let entry = vec![WORD; room];
        let (mut a, mut b) = (entry.clone(), entry.clone());
        let proved = proved::drm_read(bytes, &mut a);
        let second = calls::drm_read(bytes, &mut b);
        let input = (bytes, room);
        self.tally
            .agree_lent(Call::DrmRead, &input, &entry, (proved, &a), (second, &b));
        if let Some((unit, words)) = sent {
            let reading = DrmReading {
                count: words.len(),
                unit,
                refusal: 0,
            };
            let meant = (reading, filled(words, &entry));
            self.tally.expect(Call::DrmRead, &input, (proved, a), meant);
        }
    }

    /// Every length with every number of system words and every mix of faults.
    pub fn drm_faults(&mut self) {
        for length in 0..=129 {
            for faults in 0..1 << 8 {
                let fault = |i: u32| faults >> i & 1;
                let mut bytes = vec![0_u8; length];
                let (tmchi, rfu, ua) = (fault(0), fault(1), fault(2));
                if length > 5 {
                    bytes[0] = (tmchi << 7 | rfu << 6 | ua) as u8;
                    let aid = [0xCD, 0x46 + fault(3) as u8];
                    let m = (fault(4) << 1 | fault(5)) as u8;
                    if ua == 1 {
                        bytes[1..3].copy_from_slice(&aid);
                        bytes[5] = m;
                    } else {
                        bytes[3] = m;
                    }
                    bytes[length - 1] |= fault(6) as u8;
                }
                let mut bytes = sender::checked(bytes);
                *bytes.last_mut().unwrap() ^= fault(7) as u8;
                for room in [0, 28] {
                    self.read_unit(&bytes, room, None);
                }
            }
        }
    }

    fn damage_unit(&mut self, bytes: &mut Vec<u8>) {
        match self.random.below(7) {
            0 => bytes[0] ^= 0x40,
            1 => bytes[0] ^= 0x80,
            2 => bytes[0] ^= 1,
            3 if bytes.len() > 3 => bytes[3] &= !3,
            4 => bytes.resize(self.random.index(131), 0),
            _ => self.damage_bytes(bytes, 131),
        }
    }

    /// Damages the words of a unit, so that messages in it may not be whole.
    fn damage_words(&mut self, words: &mut Vec<u64>) {
        let random = &mut self.random;
        if words.is_empty() {
            return;
        }
        let at = random.index(words.len());
        match random.below(8) {
            0 => words.truncate(at),
            1 => words.insert(at, sender::other_word(random)),
            2 => {
                let single = Message::single(random).words[0];
                words.insert(at, single);
            }
            3 => {
                let head = sender::random_head(random);
                words.insert(at, sender::first_word(2, head));
            }
            4 => words[at] ^= 1 << random.below(38),
            5 => words.resize(words.len() + 256, 1 << 36),
            // A first group becomes one of an INTER-ROAD message, or of one no longer.
            6 => words[at] ^= 0xFC00,
            _ => {
                words.remove(at);
            }
        }
    }

    pub fn drm_write(&mut self) {
        let mut unit = sender::random_unit(&mut self.random);
        let mut words = self.whole_words(30);
        let mut whole = unit.tmchi == 1 || !words.is_empty();
        if self.random.once_in(3) {
            whole = false;
            self.random.damage(unit.fields());
        }
        if self.random.once_in(3) {
            whole = false;
            self.damage_words(&mut words);
        }
        let refused = self.random.once_in(8);
        if refused {
            whole = false;
            let broken = Break::of_message(&mut self.random);
            words.extend(broken.words(&mut self.random));
        }
        let room = if self.random.once_in(6) {
            self.random.index(130)
        } else {
            130
        };
        let entry = vec![BYTE; room];
        let (mut a, mut b) = (entry.clone(), entry.clone());
        let proved = proved::drm_write(unit, &words, &mut a);
        let second = calls::drm_write(unit, &words, &mut b);
        let input = (unit, &words, room);
        self.tally
            .agree_lent(Call::DrmWrite, &input, &entry, (proved, &a), (second, &b));

        let mut unused = unit.system_words.iter().skip(unit.system_count.into());
        let unused = unused.any(|&word| word != 0);
        let beyond = unit.system_count > 3;
        let bare = DrmUnit {
            short_id: unit.short_id,
            ..DrmUnit::default()
        };
        let headless = unit.tmchi == 0 && unit != bare;
        let tally = &mut self.tally;
        tally.mark("DRM write: an unused system word not 0", unused);
        tally.mark("DRM write: four system words or more", beyond);
        tally.mark("DRM write: a field of a header that is not sent", headless);
        let inter_road = words.iter().any(|&word| {
            // A first group with an FLT code.
            let head = word >> 31 & 1 == 1 && (1..=6).contains(&(word >> 32));
            head && sender::is_flt(word as u16)
        });
        tally.mark(
            "DRM write: an INTER-ROAD message",
            inter_road && proved.refusal == 0,
        );
        if unused || beyond || headless || refused {
            self.tally.expect(Call::DrmWrite, &input, proved.refusal, 9);
            return;
        }
        let bytes = sender::checked(sender::unit(&unit, &words, None, 0));
        if proved.refusal == 0 || whole && bytes.len() <= 128 {
            let meant = written(&bytes, entry);
            self.tally
                .expect(Call::DrmWrite, &input, (proved, a), meant);
        }
    }

    pub fn check_word(&mut self) {
        let most = self.random.pick(&[130, 130, 130, 2000]);
        let length = self.random.index(most);
        let bytes: Vec<_> = (0..length).map(|_| self.random.number() as u8).collect();
        let proved = proved::check_word(&bytes);
        let second = calls::check_word(&bytes);
        self.tally.agree(Call::CheckWord, &bytes, proved, second);
        let meant = sender::check_word(&bytes);
        self.tally.expect(Call::CheckWord, &bytes, proved, meant);
    }
}
