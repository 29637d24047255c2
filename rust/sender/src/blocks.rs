//! A plain sender of fast information blocks: FIGs of every kind, with what must be read of them.

use crate::checked;
use crate::figs::{fig, fig_start, fig_words, typed_fig};
use crate::random::Random;
use proved::{FibReading, Fig};

/// Bytes of the data field.
pub const DATA_BYTES: usize = 30;
/// The most words of a block.
pub const WORDS: usize = 14;
/// The end marker.
pub const MARKER: u8 = 0xFF;
/// The data lengths of FIGs 5/1 with words of 37 bits.
const DATA_LENGTHS: [usize; 6] = [5, 10, 14, 19, 24, 28];

/// What is special about a FIG.
#[derive(Clone, Copy, Debug, PartialEq, Eq)]
pub enum Kind {
    /// Nothing: a FIG 5/1 with words.
    Words,
    /// A type of 0 to 6 that is not 5.
    OtherType,
    /// Type 0 with count 0: a zero byte.
    Zero,
    /// Type 7, not the end marker.
    Type7,
    /// Type 5 with count 0.
    Count0,
    /// Type 5 with another extension.
    OtherExtension,
    /// D2 is set.
    D2,
    /// A FIG 5/1 with count 1.
    NoData,
    /// Data of another length.
    DataLength,
    /// Padding that is not zero.
    Padding,
}

const SKIPPED: [Kind; 5] = [
    Kind::OtherType,
    Kind::Zero,
    Kind::Type7,
    Kind::Count0,
    Kind::OtherExtension,
];
const REFUSED: [Kind; 4] = [Kind::D2, Kind::NoData, Kind::DataLength, Kind::Padding];

/// A FIG of a block.
#[derive(Clone, Debug)]
pub struct SentFig {
    pub kind: Kind,
    pub bytes: Vec<u8>,
    pub fig: Fig,
    /// No words if the FIG is skipped or refused.
    pub words: Vec<u64>,
}

/// So many bytes, 0x00 and 0xFF often among them.
pub fn random_bytes(random: &mut Random, length: usize) -> Vec<u8> {
    (0..length).map(|_| random.byte(8)).collect()
}

impl SentFig {
    /// A FIG 5/1 with words.
    pub fn words(header: Fig, words: &[u64]) -> Self {
        Self {
            kind: Kind::Words,
            bytes: fig(header, words),
            fig: header,
            words: words.to_vec(),
        }
    }

    /// A FIG of any kind, of at most so many bytes.
    fn random(random: &mut Random, most: usize) -> Self {
        loop {
            let kind = match random.below(8) {
                0 => random.pick(&REFUSED),
                1..4 => random.pick(&SKIPPED),
                _ => Kind::Words,
            };
            let sent = Self::of_kind(random, kind);
            if sent.bytes.len() <= most {
                return sent;
            }
        }
    }

    /// A FIG of a kind, often a short one.
    fn of_kind(random: &mut Random, kind: Kind) -> Self {
        let mut header = Fig {
            d1: random.byte(1),
            tcid: random.byte(3),
        };
        if kind == Kind::Padding {
            header.d1 = 0;
        }
        let words = random_words(random, header.d1);
        let most = random.index(DATA_BYTES) + 1;
        let length = random.index(most);
        let data = random_bytes(random, length);
        let type_5 = |d2, extension, data: &[u8]| {
            let start = fig_start(header, d2, extension).bytes();
            typed_fig(5, &[&start, data].concat())
        };
        let bytes = match kind {
            Kind::Words => return Self::words(header, &words),
            Kind::OtherType => typed_fig(random.pick(&[0, 1, 2, 3, 4, 6]), &data),
            Kind::Zero => typed_fig(0, &[]),
            Kind::Type7 => typed_fig(7, &data),
            Kind::Count0 => typed_fig(5, &[]),
            Kind::OtherExtension => {
                let extension = random.pick(&[0, 2, 3, 4, 5, 6, 7]);
                type_5(random.byte(1), extension, &data)
            }
            Kind::D2 => type_5(1, 1, &data),
            Kind::NoData => type_5(0, 1, &[]),
            Kind::DataLength => {
                let wrong = |&length: &usize| match header.d1 {
                    0 => !DATA_LENGTHS.contains(&length),
                    _ => length % 2 == 1,
                };
                let lengths: Vec<_> = (1..28).filter(wrong).collect();
                let length = random.pick(&lengths);
                type_5(0, 1, &random_bytes(random, length))
            }
            Kind::Padding => {
                let mut bytes = fig(header, &words);
                let spare = 8 * (bytes.len() - 2) - 37 * words.len();
                let last = bytes.len() - 1;
                bytes[last] |= 1 + random.below((1 << spare) - 1) as u8;
                bytes
            }
        };
        Self {
            kind,
            bytes,
            fig: header,
            words: Vec::new(),
        }
    }

    /// The refusal that the reader of FIGs gives whatever the room, or 0.
    fn refusal(&self) -> u8 {
        match self.kind {
            Kind::NoData | Kind::DataLength => 1,
            Kind::D2 | Kind::Padding => 3,
            _ => 0,
        }
    }
}

/// Words of a FIG 5/1, often few.
fn random_words(random: &mut Random, d1: u8) -> Vec<u64> {
    let (most, width) = fig_words(d1);
    let most = random.index(most) + 1;
    let count = random.index(most) + 1;
    (0..count).map(|_| random.bits(width as u32)).collect()
}

/// FIGs of every kind that fit into a data field, often as many as that.
pub fn random_figs(random: &mut Random) -> Vec<SentFig> {
    let mut left = DATA_BYTES;
    let mut figs = Vec::new();
    while left > 0 && !random.once_in(8) {
        let sent = SentFig::random(random, left);
        left -= sent.bytes.len();
        figs.push(sent);
    }
    figs
}

/// FIGs of every kind that leave room for a byte in a data field.
pub fn figs_with_room(random: &mut Random) -> Vec<SentFig> {
    let mut figs = random_figs(random);
    if bytes(&figs).len() == DATA_BYTES {
        figs.pop();
    }
    figs
}

/// So many bytes of a FIG that has more.
pub fn cut_fig(random: &mut Random, length: usize) -> Vec<u8> {
    loop {
        let count = length as u64 + random.below(32 - length as u64);
        let header = (random.below(8) << 5 | count) as u8;
        if header != MARKER {
            let rest = random_bytes(random, length - 1);
            return [&[header], &rest[..]].concat();
        }
    }
}

/// The bytes of FIGs.
pub fn bytes(figs: &[SentFig]) -> Vec<u8> {
    figs.iter().flat_map(|sent| sent.bytes.clone()).collect()
}

/// A block of FIGs, so much as fits of what follows them, and zeros.
pub fn block(figs: &[SentFig], end: &[u8]) -> Vec<u8> {
    let mut data = bytes(figs);
    data.extend(end);
    data.resize(DATA_BYTES, 0);
    checked(data)
}

/// What must be read of a block.
pub struct Meant {
    pub reading: FibReading,
    pub words: Vec<u64>,
    pub origins: Vec<u8>,
    /// How many FIGs were gone over, without one that was refused.
    pub passed: usize,
}

/// What must be read of a block of these FIGs with this room.
pub fn meant(figs: &[SentFig], room: usize) -> Meant {
    let mut meant = Meant {
        reading: FibReading::default(),
        words: Vec::new(),
        origins: Vec::new(),
        passed: 0,
    };
    for sent in figs {
        let refusal = match sent.refusal() {
            0 if meant.words.len() + sent.words.len() > room => 15,
            refusal => refusal,
        };
        if refusal != 0 {
            meant.reading.fig_begin = bytes(&figs[..meant.passed]).len();
            meant.reading.fig_refusal = refusal;
            break;
        }
        meant.words.extend(&sent.words);
        let origin = 8 * sent.fig.d1 + sent.fig.tcid;
        meant.origins.extend([origin].repeat(sent.words.len()));
        meant.passed += 1;
    }
    meant.reading.count = meant.words.len();
    meant
}
