//! The two listing programs on recordings.

use std::fs::{self, File};
use std::path::{Path, PathBuf};
use std::process::{self, Command, Stdio};
use std::{env, io};

use crate::broken::Content;
use crate::tally::{fail, Call};
use crate::Trial;
use proved::{BrokenAt, DrmUnit, Fig};
use sender::{Break, Message, FIG_WORDS, HEADED_WORDS, REAL_BITS, UNIT_WORDS};

/// More than the listing program reads at once.
const BEYOND_BUFFER: usize = 150_000;
/// Lengths of frames at the limits, and one that is right but for a carry.
const LENGTHS: [u16; 8] = [0, 1, 2, 3, 130, 131, 132, 266];

const HEADER: &str = "no form event location dir extent div dur items\n";

/// The two programs.
pub struct Programs {
    pub proved: PathBuf,
    pub second: PathBuf,
}

/// An exit status and what was printed.
type Listing = (Option<i32>, Vec<u8>);

fn run(program: &Path, recording: &Path) -> io::Result<Listing> {
    let output = Command::new(program)
        .stdin(File::open(recording)?)
        .stderr(Stdio::inherit())
        .output()?;
    Ok((output.status.code(), output.stdout))
}

/// Ends if two listings of a recording differ.
fn compare(what: &str, recording: &Path, one: &Listing, other: &Listing) {
    if one == other {
        return;
    }
    println!("the recording is kept at {}", recording.display());
    let [one, other] = [one, other].map(|(status, listing)| {
        let listing = String::from_utf8_lossy(listing);
        let lines: Vec<_> = listing.lines().map(str::to_owned).collect();
        (*status, lines)
    });
    let same = one.1.iter().zip(&other.1).position(|(a, b)| a != b);
    let same = same.unwrap_or(one.1.len().min(other.1.len()));
    let next = |(status, lines): &(_, Vec<String>)| (*status, lines.get(same).cloned());
    let what = format!("Listing: {what}: exit status and first line that differs, after so many");
    fail(&what, &same, &next(&one), &next(&other));
}

/// Whether a line of a refusal has a place exactly if content was refused.
fn is_placed(line: &str) -> bool {
    let numbers = line.split(' ').skip(1).map(str::parse);
    let numbers: Result<Vec<u64>, _> = numbers.collect();
    match numbers.as_deref() {
        Ok(&[_, refusal @ (7 | 8), at]) => {
            let at = u8::try_from(at);
            at.is_ok_and(|at| Content::some_breaks(refusal as u8, at))
        }
        Ok([_, refusal]) => !matches!(refusal, 7 | 8),
        _ => false,
    }
}

/// Adds a frame of the house form: length, kind, body.
fn add_frame(recording: &mut Vec<u8>, kind: u16, body: &[u8]) {
    recording.extend((body.len() as u16 + 2).to_le_bytes());
    recording.extend(kind.to_le_bytes());
    recording.extend(body);
}

impl Trial {
    /// A body of a kind, now and then damaged.
    fn bodies(&mut self, bodies: &mut Vec<(u16, Vec<u8>)>) {
        let kind = 1 + self.random.below(3) as u16;
        let mut words = match self.random.once_in(8) {
            true => Break::of_message(&mut self.random).words(&mut self.random),
            false => Message::random(&mut self.random).words,
        };
        if self.random.once_in(5) {
            words.remove(self.random.index(words.len()));
        }
        if self.random.once_in(5) {
            let at = self.random.index(words.len() + 1);
            words.insert(at, self.any_word() % sender::WORD_LIMIT);
        }
        words.truncate(FIG_WORDS);
        let first = bodies.len();
        match kind {
            1 => {
                for word in words {
                    let times = self.random.pick(&[2, 2, 2, 2, 1, 3]);
                    for _ in 0..times {
                        let group = sender::random_group(&mut self.random, word);
                        bodies.push((1, sender::group(group)));
                    }
                }
            }
            2 => {
                let d1 = u8::from(self.random.once_in(8));
                words.iter_mut().for_each(|word| {
                    if d1 == 1 {
                        *word &= 0xFFFF;
                    }
                });
                if words.is_empty() {
                    words.push(0);
                }
                let tcid = self.random.byte(3);
                bodies.push((2, sender::fig(Fig { d1, tcid }, &words)));
            }
            _ => {
                let more = self.random.pick(&[0, 1, 2, 3, 4, 5, UNIT_WORDS]);
                for _ in 0..more {
                    words.extend(Message::random(&mut self.random).words);
                }
                bodies.push((3, self.unit(words)));
            }
        }
        for (kind, body) in &mut bodies[first..] {
            if self.random.once_in(25) {
                self.damage_bytes(body, 129);
                body.truncate(128);
            }
            if self.random.once_in(60) {
                *kind = self.random.pick(&[0, 1, 2, 3, 4, 16, 0x0101, 0xFFFF]);
            }
        }
    }

    /// A data unit of these words, or of as many of the first ones as it carries.
    fn unit(&mut self, mut words: Vec<u64>) -> Vec<u8> {
        let unit = sender::random_unit(&mut self.random);
        let most = if unit.tmchi == 0 {
            UNIT_WORDS
        } else {
            HEADED_WORDS
        };
        words.truncate(most);
        self.tally
            .mark("listing: a unit of 26 words", words.len() == 26);
        self.tally
            .mark("listing: a unit of 27 words", words.len() == 27);
        sender::checked(sender::unit(&unit, &words, None, 0))
    }

    /// A recording of about so many bytes.
    pub fn recording(&mut self, size: usize) -> Vec<u8> {
        let mut recording = Vec::new();
        let mut bodies = Vec::new();
        while recording.len() < size {
            bodies.clear();
            self.bodies(&mut bodies);
            for (kind, body) in &bodies {
                add_frame(&mut recording, *kind, body);
            }
        }
        recording
    }

    /// Frames of the greatest length up to beyond what the program reads at once, after one of any
    /// length, so that one of them lies across the end of what was read, at any of its bytes.
    fn longest_frames(&mut self) -> Vec<u8> {
        let mut recording = Vec::new();
        let filler = vec![0; self.random.index(129)];
        add_frame(&mut recording, 4, &filler);
        while recording.len() < BEYOND_BUFFER {
            let unit = DrmUnit {
                short_id: self.random.byte(4),
                ..DrmUnit::default()
            };
            let mut words = Vec::new();
            while words.len() < UNIT_WORDS {
                words.extend(Message::random(&mut self.random).words);
            }
            words.truncate(UNIT_WORDS);
            let body = sender::checked(sender::unit(&unit, &words, None, 0));
            add_frame(&mut recording, 3, &body);
        }
        recording
    }

    /// A whole frame of this length, and others after it.
    fn at_limit(&mut self, length: u16) -> Vec<u8> {
        let mut recording = length.to_le_bytes().to_vec();
        recording.extend([1, 0]);
        recording.resize(2 + usize::from(length.max(2)), 0);
        recording.extend(self.recording(400));
        recording
    }

    fn damaged_recording(&mut self, size: usize) -> Vec<u8> {
        let size = self.random.index(size);
        let mut recording = self.recording(size);
        let at = self.random.index(recording.len() + 1);
        match self.random.below(6) {
            0 => recording.truncate(at),
            1 => recording.push(self.random.number() as u8),
            2 => recording.extend([self.random.pick(&[0, 1, 131, 255]), 0, 1, 0]),
            3 if at < recording.len() => recording[at] = self.random.number() as u8,
            4 => {
                let length = self.random.pick(&LENGTHS);
                recording.extend(self.at_limit(length));
            }
            _ => {}
        }
        recording
    }

    /// Bodies that carry words: each in a group twice, or all in a FIG or in a data unit.
    fn carry(&mut self, kind: u16, words: Vec<u64>) -> Vec<(u16, Vec<u8>)> {
        match kind {
            1 => {
                let random = &mut self.random;
                let group = |word| (1, sender::group(sender::random_group(random, word)));
                let twice = words.into_iter().flat_map(|word| [word; 2]);
                twice.map(group).collect()
            }
            2 => {
                let tcid = self.random.byte(3);
                vec![(2, sender::fig(Fig { d1: 0, tcid }, &words))]
            }
            _ => vec![(3, self.unit(words))],
        }
    }

    /// A recording of messages with every break, at home and INTER-ROAD, and its listing.
    fn broken_recording(&mut self) -> (Vec<u8>, String) {
        let breaks = [0, REAL_BITS].map(Break::all).concat();
        let mut rest = &breaks[..];
        let mut bodies = Vec::new();
        let mut listing = HEADER.to_owned();
        while !rest.is_empty() {
            let kind = 1 + self.random.below(3) as u16;
            // Several messages in a data unit.
            let most = if kind == 3 { 3 } else { 1 };
            let (breaks, after) = rest.split_at(1 + self.random.index(most.min(rest.len())));
            let words = breaks.iter().flat_map(|it| it.words(&mut self.random));
            let words = words.collect();
            bodies.extend(self.carry(kind, words));
            for broken in breaks {
                let (refusal, BrokenAt(at)) = (broken.refusal(), broken.broken_at());
                listing += &format!("! {} {refusal} {at}\n", bodies.len());
            }
            rest = after;
        }
        let mut recording = Vec::new();
        for (kind, body) in &bodies {
            add_frame(&mut recording, *kind, body);
        }
        (recording, listing)
    }

    /// Lists a recording with both programs.
    fn list(&mut self, programs: &Programs, path: &Path, recording: &[u8]) -> io::Result<Listing> {
        fs::write(path, recording)?;
        let proved = run(&programs.proved, path)?;
        let second = run(&programs.second, path)?;
        compare("proved, second", path, &proved, &second);
        let listing = String::from_utf8_lossy(&proved.1);
        let mut refusals = listing.lines().filter(|line| line.starts_with('!'));
        let misplaced = refusals.find(|line| !is_placed(line));
        self.tally.expect(Call::Listing, &path, misplaced, None);
        self.tally.count(Call::Listing, 0);
        Ok(proved)
    }

    /// Compares the listings of recordings, from empty ones to large ones.
    pub fn listings(&mut self, programs: &Programs, count: usize) -> io::Result<()> {
        let path = env::temp_dir().join(format!("compare-{}.recording", process::id()));
        let (recording, meant) = self.broken_recording();
        let listing = self.list(programs, &path, &recording)?;
        compare("listed, sent", &path, &listing, &(Some(0), meant.into()));
        for i in 0..count {
            let recording = match i {
                0 => vec![],
                _ if i <= LENGTHS.len() => self.at_limit(LENGTHS[i - 1]),
                _ if i % 40 == 20 => self.recording(1_000_000),
                _ if i % 10 == 5 => self.longest_frames(),
                _ => {
                    let size = self.random.pick(&[40, 400, 4000]);
                    self.damaged_recording(size)
                }
            };
            self.list(programs, &path, &recording)?;
        }
        fs::remove_file(&path)
    }
}
