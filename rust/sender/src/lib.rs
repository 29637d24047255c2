//! A plain sender: every form is built as a string of bits, field by field, so that what a reader
//! must answer is known without either program.

#![deny(warnings)]

use proved::{DrmUnit, Head, Item, RdsGroup, Report, SystemFields, WordFields};
use random::Random;

mod bits;
pub mod blocks;
mod broken;
mod check;
mod figs;
pub mod random;

pub use bits::Bits;
pub use broken::Break;
pub use check::{check_word, checked};
pub use figs::{fig, fig_words, FIG_WORDS};

/// Bits of the value after labels 0 to 14.
pub const WIDTHS: [u32; 15] = [3, 3, 5, 5, 5, 8, 8, 8, 8, 11, 16, 16, 16, 16, 0];
/// The separator, an item without a value.
const SEPARATOR: Item = Item {
    label: 14,
    value: 0,
};
/// The item that sets the diversion.
const DIVERSION: Item = Item { label: 1, value: 5 };
/// Label of an additional event.
pub const ADDITIONAL_EVENT: u16 = 9;
/// The most bits of content.
pub const CONTENT_BITS: usize = 112;
/// Bits of a real location, which stand before the items.
pub const REAL_BITS: usize = 16;
/// Words are below this.
pub const WORD_LIMIT: u64 = 1 << 37;
/// The most words in a data unit: without a header, in 128 bytes.
pub const UNIT_WORDS: usize = 27;
/// With the shortest header there is room for so many.
pub const HEADED_WORDS: usize = 25;

/// The code of a foreign location table.
pub fn flt_code(country: u8, ltn: u8) -> u16 {
    Bits::of(&[(63, 6), (country.into(), 4), (ltn.into(), 6)]).number() as u16
}

/// Whether a location code is one of a foreign location table: six ones.
pub fn is_flt(code: u16) -> bool {
    code >> 10 == 63
}

/// A location code, often of a foreign location table.
pub fn random_location(random: &mut Random) -> u16 {
    match random.below(6) {
        0 => flt_code(random.byte(4), random.byte(6)),
        1 => random.pick(&[0xFBFF, 0xFC00]),
        _ => random.short(16),
    }
}

pub fn random_head(random: &mut Random) -> Head {
    Head {
        direction: random.byte(1),
        extent: random.byte(3),
        event: random.short(11),
        location: random_location(random),
    }
}

/// A word of bits before the head, and the head.
fn headed_word(fields: &[(u64, usize)], head: Head) -> u64 {
    let mut bits = Bits::of(fields);
    bits.add(head.direction, 1);
    bits.add(head.extent, 3);
    bits.add(head.event, 11);
    bits.add(head.location, 16);
    bits.number()
}

pub fn single_word(duration: u8, diversion: u8, head: Head) -> u64 {
    let fields = [(0, 1), (1, 1), (duration.into(), 3), (diversion.into(), 1)];
    headed_word(&fields, head)
}

pub fn first_word(ci: u8, head: Head) -> u64 {
    headed_word(&[(0, 2), (ci.into(), 3), (1, 1)], head)
}

pub fn later_word(ci: u8, mark: u8, gsi: u8, content: u32) -> u64 {
    let mut bits = Bits::of(&[(0, 2), (ci.into(), 3), (0, 1)]);
    bits.add(mark, 1);
    bits.add(gsi, 2);
    bits.add(content, 28);
    bits.number()
}

/// A word that is no user group: tuning, administration or CI 7.
pub fn other_word(random: &mut Random) -> u64 {
    let low = random.bits(32);
    match random.below(3) {
        0 => Bits::of(&[(1, 1), (random.bits(4), 4), (low, 32)]).number(),
        1 => low,
        _ => 7 << 32 | low,
    }
}

/// A number that is no word.
pub fn no_word(random: &mut Random) -> u64 {
    (random.below(1 << 27) + 1) << 37 | random.bits(37)
}

/// The fields of a word of any kind, and the word.
pub fn random_word(random: &mut Random) -> (WordFields, u64) {
    let head = random_head(random);
    let mut fields = WordFields {
        kind: random.below(6) as u8,
        ..WordFields::default()
    };
    let word = match fields.kind {
        0 => {
            fields.duration = random.byte(3);
            fields.diversion = random.byte(1);
            fields.head = head;
            single_word(fields.duration, fields.diversion, head)
        }
        1 => {
            fields.ci = random.ci();
            fields.head = head;
            first_word(fields.ci, head)
        }
        2 => {
            fields.ci = random.ci();
            fields.second = random.byte(1);
            fields.gsi = random.byte(2);
            fields.content = random.bits(28) as u32;
            later_word(fields.ci, fields.second, fields.gsi, fields.content)
        }
        kind => {
            let start = match kind {
                3 => [(1, 1), (random.bits(4), 4)],
                4 => [(0, 2), (0, 3)],
                _ => [(0, 2), (7, 3)],
            };
            let mut bits = Bits::of(&start);
            bits.add(random.bits(32), 32);
            fields.word = bits.number();
            fields.word
        }
    };
    (fields, word)
}

/// The fields of a system word, and the word.
pub fn random_system(random: &mut Random) -> (SystemFields, u16) {
    let mut fields = SystemFields {
        variant: random.byte(1),
        ..SystemFields::default()
    };
    let mut bits = Bits::of(&[(fields.variant.into(), 2)]);
    if fields.variant == 0 {
        // Reserved.
        bits.add(0_u8, 2);
    }
    let mut draw = |field: &mut u8, width: usize| {
        *field = random.byte(width as u32);
        bits.add(*field, width);
    };
    if fields.variant == 0 {
        draw(&mut fields.ltn, 6);
        draw(&mut fields.afi, 1);
        draw(&mut fields.mode, 1);
        draw(&mut fields.international, 1);
        draw(&mut fields.national, 1);
        draw(&mut fields.regional, 1);
        draw(&mut fields.urban, 1);
    } else {
        draw(&mut fields.gap, 2);
        draw(&mut fields.sid, 6);
        draw(&mut fields.ta, 2);
        draw(&mut fields.tw, 2);
        draw(&mut fields.td, 2);
    }
    (fields, bits.number() as u16)
}

fn width(item: Item) -> usize {
    WIDTHS[usize::from(item.label)] as usize
}

/// Bits that items take.
pub fn length(items: &[Item]) -> usize {
    items.iter().map(|&item| 4 + width(item)).sum()
}

pub fn random_item(random: &mut Random) -> Item {
    let label = match random.below(4) {
        0 => random.below(2),
        1 => 14,
        _ => random.below(15),
    };
    let value = random.short(WIDTHS[label as usize]);
    if label == 1 && random.once_in(4) {
        return DIVERSION;
    }
    Item {
        label: label as u16,
        value,
    }
}

/// Items that take at most so many bits, often as many as that, the last not (0, 0).
pub fn random_items(random: &mut Random, most: usize) -> Vec<Item> {
    let fewer = random.index(most + 1);
    let most = random.pick(&[most, fewer]);
    let separators = random.once_in(8);
    let mut items = Vec::new();
    loop {
        let item = random_item(random);
        if separators || length(&items) + 4 + width(item) > most {
            break;
        }
        items.push(item);
    }
    if separators || random.once_in(2) {
        while length(&items) + 4 <= most {
            items.push(SEPARATOR);
        }
    }
    trim(&mut items);
    items
}

/// Drops items (0, 0) at the end, which no reader finds there.
fn trim(items: &mut Vec<Item>) {
    while items.last() == Some(&Item::default()) {
        items.pop();
    }
}

/// Whether a report is INTER-ROAD.
pub fn is_inter_road(report: &Report) -> bool {
    report.form == 1 && is_flt(report.head.location)
}

/// The bits that a multi-group message of this head has before its items.
fn real_bits(head: Head) -> usize {
    match is_flt(head.location) {
        true => REAL_BITS,
        false => 0,
    }
}

/// The most bits that it has for items.
pub fn item_bits(head: Head) -> usize {
    CONTENT_BITS - real_bits(head)
}

/// Parts of 28 bits, at least one, the last one filled with zero bits.
fn parts_of(mut bits: Bits) -> Vec<u32> {
    bits.pad(28);
    bits.numbers(28).iter().map(|&part| part as u32).collect()
}

/// The parts that items alone take.
pub fn item_parts(items: &[Item]) -> Vec<u32> {
    let mut bits = Bits::default();
    bits.add_items(items);
    parts_of(bits)
}

/// The parts that a multi-group report takes.
pub fn parts(report: &Report) -> Vec<u32> {
    let mut bits = Bits::default();
    bits.add(report.real_location, real_bits(report.head));
    bits.add_items(&report.items[..report.item_count]);
    parts_of(bits)
}

/// The words of a multi-group message.
fn words_of(head: Head, ci: u8, parts: &[u32]) -> Vec<u64> {
    let mut words = vec![first_word(ci, head)];
    words.extend(parts.iter().enumerate().map(|(i, &part)| {
        let gsi = parts.len() - 1 - i;
        later_word(ci, u8::from(i == 0), gsi as u8, part)
    }));
    words
}

/// A message: its report and its words.
#[derive(Clone, Debug)]
pub struct Message {
    /// 0 for a single-group message.
    pub ci: u8,
    pub report: Report,
    pub words: Vec<u64>,
}

/// A multi-group report: its duration is the first item's of label 0, and it has a diversion if
/// an item says so.
pub fn multi_report(head: Head, real_location: u16, items: &[Item]) -> Report {
    let duration = items.iter().find(|item| item.label == 0);
    let mut report = Report {
        head,
        real_location,
        item_count: items.len(),
        diversion: items.contains(&DIVERSION).into(),
        duration: duration.map_or(0, |item| item.value as u8),
        form: 1,
        ..Report::default()
    };
    report.items[..items.len()].copy_from_slice(items);
    report
}

/// A multi-group report that fits, of this head.
pub fn multi_of(random: &mut Random, head: Head) -> Report {
    let real = match is_flt(head.location) {
        true => random_location(random),
        false => 0,
    };
    let items = random_items(random, item_bits(head));
    multi_report(head, real, &items)
}

/// The multi-group report with an additional event among its items, of which the last ones make
/// room.
pub fn with_event(random: &mut Random, report: Report, event: u16) -> Report {
    let added = Item {
        label: ADDITIONAL_EVENT,
        value: event,
    };
    let mut items = report.items[..report.item_count].to_vec();
    while length(&items) + length(&[added]) > item_bits(report.head) {
        items.pop();
    }
    items.insert(random.index(items.len() + 1), added);
    trim(&mut items);
    multi_report(report.head, report.real_location, &items)
}

/// A multi-group report that fits.
pub fn random_multi(random: &mut Random) -> Report {
    let head = random_head(random);
    multi_of(random, head)
}

impl Message {
    pub fn single(random: &mut Random) -> Self {
        let report = Report {
            head: random_head(random),
            diversion: random.byte(1),
            duration: random.byte(3),
            ..Report::default()
        };
        Self {
            ci: 0,
            report,
            words: vec![single_word(report.duration, report.diversion, report.head)],
        }
    }

    /// The message of a multi-group report; `spare` more later groups of zero bits, as far as
    /// they fit.
    pub fn multi(report: Report, ci: u8, spare: usize) -> Self {
        let mut parts = parts(&report);
        parts.resize((parts.len() + spare).min(4), 0);
        let words = words_of(report.head, ci, &parts);
        Self { ci, report, words }
    }

    pub fn random_multi(random: &mut Random, ci: u8) -> Self {
        let report = random_multi(random);
        let spare = if random.once_in(4) {
            random.index(4)
        } else {
            0
        };
        Self::multi(report, ci, spare)
    }

    pub fn random(random: &mut Random) -> Self {
        if random.once_in(3) {
            Self::single(random)
        } else {
            let ci = random.ci();
            Self::random_multi(random, ci)
        }
    }
}

pub fn random_group(random: &mut Random, word: u64) -> RdsGroup {
    RdsGroup {
        pi: random.short(16),
        tp: random.byte(1),
        pty: random.byte(5),
        word,
    }
}

/// The bytes of an RDS group.
pub fn group(group: RdsGroup) -> Vec<u8> {
    let mut bits = Bits::of(&[(group.pi.into(), 16), (8, 4), (0, 1)]);
    bits.add(group.tp, 1);
    bits.add(group.pty, 5);
    bits.add(group.word, 37);
    bits.bytes()
}

/// A data unit with a header or without.
pub fn random_unit(random: &mut Random) -> DrmUnit {
    let mut unit = DrmUnit {
        short_id: random.byte(4),
        ..DrmUnit::default()
    };
    if random.once_in(2) {
        unit.tmchi = 1;
        unit.services = random.byte(4);
        unit.country = random.byte(4);
        unit.ecc = random.byte(8);
        unit.lto = random.lto();
        unit.system_count = 1 + random.below(3) as u8;
        for word in &mut unit.system_words[..usize::from(unit.system_count)] {
            *word = random.short(16);
        }
    }
    unit
}

/// The bytes of a data unit before its check word, padded; `ua` is the UA data if it is sent,
/// `rfa` that bit.
pub fn unit(unit: &DrmUnit, words: &[u64], ua: Option<u16>, rfa: u8) -> Vec<u8> {
    let mut bits = Bits::of(&[(unit.tmchi.into(), 1), (0, 1), (unit.short_id.into(), 4)]);
    if unit.tmchi == 1 {
        bits.add(rfa, 1);
        bits.add(ua.is_some(), 1);
        if let Some(aid) = ua {
            bits.add(aid, 16);
        }
        bits.add(unit.services, 4);
        bits.add(unit.country, 4);
        bits.add(unit.ecc, 8);
        bits.add(unit.lto < 0, 1);
        bits.add(unit.lto.unsigned_abs(), 5);
        bits.add(unit.system_count, 2);
        for &word in &unit.system_words[..usize::from(unit.system_count)] {
            bits.add(word, 16);
        }
    }
    for &word in words {
        bits.add(word, 37);
    }
    bits.bytes()
}
