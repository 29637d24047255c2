//! Fast information blocks.

use crate::carriers::{filled, WORD};
use crate::rds::BYTE;
use crate::tally::Call;
use crate::Trial;
use proved::{FibReading, Fig};
use sender::blocks::{self, Kind, Meant, SentFig, DATA_BYTES, MARKER, WORDS};

/// The most cells of a row that is lent.
const MOST_ROOM: usize = 16;
/// What the refusal of a FIG can be, or 0.
const FIG_REFUSALS: [u8; 4] = [0, 1, 3, 15];

/// FIGs without words, skipped between FIGs with words or refused after them.
const MARKS: [(Kind, &str); 9] = [
    (Kind::OtherType, "FIB read: another type between words"),
    (Kind::Zero, "FIB read: type 0 with count 0 between words"),
    (Kind::Type7, "FIB read: type 7 between words"),
    (Kind::Count0, "FIB read: type 5 with count 0 between words"),
    (
        Kind::OtherExtension,
        "FIB read: another extension between words",
    ),
    (Kind::D2, "FIB read: D2 after words"),
    (Kind::NoData, "FIB read: count 1 after words"),
    (
        Kind::DataLength,
        "FIB read: another data length after words",
    ),
    (Kind::Padding, "FIB read: padding after words"),
];

/// How many words and how many origins are lent.
pub type Rooms = (usize, usize);

/// The lent rows: words and origins.
type Rows = (Vec<u64>, Vec<u8>);

fn has_words(figs: &[SentFig]) -> bool {
    figs.iter().any(|sent| sent.kind == Kind::Words)
}

impl Trial {
    /// The room of each row, enough more often than not.
    fn random_rooms(&mut self) -> Rooms {
        let random = &mut self.random;
        let mut room = || match random.below(3) {
            0 => random.index(MOST_ROOM + 1),
            _ => MOST_ROOM,
        };
        (room(), room())
    }

    /// FIGs of every kind, with or without an end marker and rubbish after it.
    pub fn fib_read(&mut self) {
        let figs = blocks::random_figs(&mut self.random);
        let zeros = self.random.once_in(4);
        let rubbish = self.random.once_in(3);
        let mut end = blocks::random_bytes(&mut self.random, DATA_BYTES);
        if !rubbish {
            end.fill(0);
        }
        end[0] = MARKER;
        if zeros {
            end.clear();
        }
        let rooms = self.random_rooms();
        let passed = self.read_figs(&blocks::block(&figs, &end), rooms, &figs);

        let words = has_words(&figs[..passed]);
        let length = blocks::bytes(&figs).len();
        let full = length == DATA_BYTES;
        let inside = (0..passed)
            .any(|i| figs[i].bytes[1..].contains(&MARKER) && has_words(&figs[i + 1..passed]));
        let tally = &mut self.tally;
        tally.mark("FIB read: no FIGs", figs.is_empty() && !zeros);
        tally.mark("FIB read: words of a full data field", words && full);
        tally.mark(
            "FIB read: words, a marker as the last byte",
            words && length == DATA_BYTES - 1 && !zeros,
        );
        tally.mark("FIB read: words, no marker", words && zeros && !full);
        tally.mark(
            "FIB read: words, rubbish after the marker",
            words && rubbish && !zeros && !full,
        );
        tally.mark("FIB read: words after 0xFF inside a FIG", inside);
    }

    /// A block of these FIGs, which must read as they do. Gives the number of FIGs gone over,
    /// without one that was refused.
    pub fn read_figs(&mut self, block: &[u8], rooms: Rooms, figs: &[SentFig]) -> usize {
        let (found, rows) = self.read_fib(block, rooms);
        let Meant {
            reading,
            words,
            origins,
            passed,
        } = blocks::meant(figs, rooms.0.min(rooms.1));
        let filled_rows = (
            filled(&words, &vec![WORD; rooms.0]),
            filled(&origins, &vec![BYTE; rooms.1]),
        );
        let input = (block, rooms);
        self.tally
            .expect(Call::FibRead, &input, (found, rows), (reading, filled_rows));

        let kept = has_words(&figs[..passed]);
        let refused = figs.get(passed).map(|sent| sent.kind);
        for (kind, mark) in MARKS {
            let between = (0..passed).any(|i| {
                let around = has_words(&figs[..i]) && has_words(&figs[i + 1..passed]);
                figs[i].kind == kind && around
            });
            self.tally
                .mark(mark, between || kept && refused == Some(kind));
        }
        let widths = |d1| {
            let mut figs = figs[..passed].iter();
            figs.any(|sent| sent.kind == Kind::Words && sent.fig.d1 == d1)
        };
        let full = reading.fig_refusal == 15;
        let tally = &mut self.tally;
        tally.mark("FIB read: both widths of words", widths(0) && widths(1));
        tally.mark("FIB read: 14 words", words.len() == WORDS);
        tally.mark(
            "FIB read: a FIG refused at byte 0",
            reading.fig_refusal != 0 && reading.fig_begin == 0,
        );
        tally.mark(
            "FIB read: too few words lent, some filled",
            full && kept && rooms.0 < rooms.1,
        );
        tally.mark(
            "FIB read: too few origins lent, some filled",
            full && kept && rooms.1 < rooms.0,
        );
        passed
    }

    /// One reading on both sides. What follows the words that were read stays.
    fn read_fib(&mut self, block: &[u8], rooms: Rooms) -> (FibReading, Rows) {
        let entry = (vec![WORD; rooms.0], vec![BYTE; rooms.1]);
        let (mut a, mut b) = (entry.clone(), entry.clone());
        let proved = proved::fib_read(block, &mut a.0, &mut a.1);
        let second = calls::fib_read(block, &mut b.0, &mut b.1);
        let input = (block, rooms);
        self.tally
            .agree_lent(Call::FibRead, &input, &entry, (proved, &a), (second, &b));
        let FibReading {
            count,
            fig_begin,
            fig_refusal,
            ..
        } = proved;
        let known = FIG_REFUSALS.contains(&fig_refusal)
            && fig_begin < DATA_BYTES
            && (fig_refusal != 0 || fig_begin == 0);
        self.tally
            .expect(Call::FibRead, &input, (proved, known), (proved, true));
        let kept = (
            filled(&a.0[..count], &entry.0),
            filled(&a.1[..count], &entry.1),
        );
        self.tally.expect(Call::FibRead, &input, &a, &kept);
        (proved, a)
    }

    /// A block that must be refused.
    fn refused_fib(&mut self, block: &[u8], refusal: u8) {
        let rooms = self.random_rooms();
        let (found, _) = self.read_fib(block, rooms);
        self.tally
            .expect(Call::FibRead, &(block, rooms), found.refusal, refusal);
    }

    /// A FIG that runs past the data field, behind FIGs of every kind.
    pub fn fib_past(&mut self) {
        let figs = blocks::figs_with_room(&mut self.random);
        let left = DATA_BYTES - blocks::bytes(&figs).len();
        let end = blocks::cut_fig(&mut self.random, left);
        let mut block = blocks::block(&figs, &end);
        self.refused_fib(&block, 1);
        let at = DATA_BYTES + self.random.index(2);
        block[at] ^= 1 << self.random.below(8);
        self.refused_fib(&block, 4);
        self.tally
            .mark("FIB read: a FIG runs past after words", has_words(&figs));
        self.tally
            .mark("FIB read: the first FIG runs past", figs.is_empty());
    }

    /// A good block with a bit turned, with another length, or damaged before its check word was
    /// made.
    pub fn fib_damaged(&mut self) {
        let figs = blocks::random_figs(&mut self.random);
        let good = blocks::block(&figs, &[MARKER]);

        let mut turned = good.clone();
        let at = self.random.index(turned.len());
        turned[at] ^= 1 << self.random.below(8);
        self.refused_fib(&turned, 4);

        let length = match self.random.below(4) {
            0 => good.len() + self.random.pick(&[1, 2, 256, 65_536]),
            _ => self.random.index(good.len()),
        };
        let mut other = good.clone();
        other.resize(length, 0);
        self.refused_fib(&other, 1);
        if length >= 2 {
            // With its own check word.
            other.truncate(length - 2);
            self.refused_fib(&sender::checked(other), 1);
        }

        let mut data = good;
        data.truncate(DATA_BYTES);
        self.damage_bytes(&mut data, DATA_BYTES + 1);
        data.resize(DATA_BYTES, 0);
        let rooms = self.random_rooms();
        let (found, _) = self.read_fib(&sender::checked(data), rooms);
        let tally = &mut self.tally;
        tally.mark("FIB read: damaged and read", found.count > 0);
        tally.mark("FIB read: damaged, a FIG refused", found.fig_refusal != 0);
        tally.mark("FIB read: damaged and refused", found.refusal == 1);
    }

    /// Any bytes, or bytes that are often short headers, mostly with a right check word.
    pub fn fib_random(&mut self) {
        let random = &mut self.random;
        let short = random.once_in(2);
        let mut byte = || match random.below(4) {
            _ if !short => random.number() as u8,
            0 => (random.below(8) << 5 | random.below(5)) as u8,
            1 => random.pick(&[0x00, 0x09, 0x49, MARKER]),
            _ => random.pick(&[0x89, 0xA3]),
        };
        let data: Vec<_> = (0..DATA_BYTES).map(|_| byte()).collect();
        let mut block = sender::checked(data);
        if random.once_in(8) {
            block[DATA_BYTES] ^= random.number() as u8;
        }
        let rooms = self.random_rooms();
        let (found, _) = self.read_fib(&block, rooms);
        self.tally
            .mark("FIB read: words of random bytes", found.count > 0);
        self.tally.mark(
            "FIB read: random bytes with a wrong check word",
            found.refusal == 4,
        );
    }

    /// Every header at every place, behind zero bytes and before several second bytes.
    pub fn fib_headers(&mut self) {
        for begin in 0..DATA_BYTES {
            for header in 0..=u8::MAX {
                let count = usize::from(header % 32);
                for second in [0x09, 0x89, 0x49, 0x0A, MARKER] {
                    let mut data = vec![0; DATA_BYTES];
                    data[begin] = header;
                    if count > 0 && begin + 1 < DATA_BYTES {
                        data[begin + 1] = second;
                    }
                    let past = header != MARKER && begin + 1 + count > DATA_BYTES;
                    let block = sender::checked(data);
                    for room in [0, WORDS] {
                        let rooms = (room, WORDS);
                        let (found, _) = self.read_fib(&block, rooms);
                        let input = (&block, rooms);
                        self.tally
                            .expect(Call::FibRead, &input, found.refusal, past.into());
                    }
                }
            }
        }
    }

    /// Every room of either row, for words of each width and each TCId, and for the most words.
    pub fn fib_rooms(&mut self) {
        let mut words = |d1, tcid, count| {
            let (_, width) = sender::fig_words(d1);
            let words: Vec<_> = (0..count).map(|_| self.random.bits(width as u32)).collect();
            SentFig::words(Fig { d1, tcid }, &words)
        };
        let mut sent = vec![vec![words(1, 7, WORDS)]];
        for tcid in 0..8 {
            let (long, short) = (words(0, tcid, 2), words(1, 7 - tcid, 8));
            sent.push(vec![long.clone(), short.clone()]);
            sent.push(vec![short, long]);
        }
        for figs in &sent {
            let block = blocks::block(figs, &[MARKER]);
            for words in 0..=MOST_ROOM {
                for origins in 0..=MOST_ROOM {
                    self.read_figs(&block, (words, origins), figs);
                }
            }
        }
    }
}
