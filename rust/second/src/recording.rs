//! Recordings in the house form, and their listing.

use std::io::{self, BufWriter, ErrorKind, Read, Write};

use crate::assembler::{Answer, Assembler};
use crate::drm;
use crate::fig::{self, Fig};
use crate::rds::{Group, Run};
use crate::report::Report;
use crate::Refusal;

/// Bytes of a frame's length, which counts what follows it.
const LENGTH: usize = 2;
/// Bytes of a frame's kind.
const KIND: usize = 2;
/// The largest length of a frame.
pub const MOST_LENGTH: usize = KIND + drm::MOST_BYTES;

/// Kinds of frames.
pub const RDS: u16 = 1;
pub const FIG: u16 = 2;
pub const DRM: u16 = 3;

const HEADER: &[u8] = b"no form event location dir extent div dur items\n";

/// A frame of the house form.
#[derive(Clone, Copy, Debug, PartialEq, Eq)]
pub struct Frame<'a> {
    pub kind: u16,
    pub body: &'a [u8],
}

impl<'a> Frame<'a> {
    /// The frame at the start of `bytes` and its length in all; refuses 1 a length below 2 or
    /// above 130 and a cut frame.
    #[inline]
    pub fn read(bytes: &'a [u8]) -> Result<(Self, usize), Refusal> {
        let length = bytes.first_chunk().ok_or(Refusal::Length)?;
        let end = LENGTH + usize::from(u16::from_le_bytes(*length));
        if !(LENGTH + KIND..=LENGTH + MOST_LENGTH).contains(&end) {
            return Err(Refusal::Length);
        }
        match bytes.get(LENGTH..end) {
            Some([low, high, body @ ..]) => {
                let kind = u16::from_le_bytes([*low, *high]);
                Ok((Self { kind, body }, end))
            }
            _ => Err(Refusal::Length),
        }
    }

    /// Adds the frame to `out`; refuses 9 too long a body.
    pub fn write(&self, out: &mut Vec<u8>) -> Result<(), Refusal> {
        let length = KIND + self.body.len();
        if length > MOST_LENGTH {
            return Err(Refusal::Unfit);
        }
        out.extend((length as u16).to_le_bytes());
        out.extend(self.kind.to_le_bytes());
        out.extend(self.body);
        Ok(())
    }
}

/// The listing of a recording, as it goes on.
struct Listing<W> {
    out: W,
    run: Run,
    assembler: Assembler,
    /// Frames read.
    frames: u64,
    /// Reports printed.
    reports: u64,
}

impl<W: Write> Listing<W> {
    #[inline]
    fn frame(&mut self, frame: Frame) -> io::Result<()> {
        match frame.kind {
            RDS => match Group::read(frame.body) {
                Ok(group) => {
                    let (run, valid) = self.run.next(group.word);
                    self.run = run;
                    if valid {
                        self.word(group.word)?;
                    }
                    Ok(())
                }
                Err(refusal) => self.refusal(refusal),
            },
            FIG => {
                let mut words = [0; fig::MOST_SYSTEM_WORDS];
                match Fig::read(frame.body, &mut words) {
                    Ok((fig, _)) if fig.system => Ok(()),
                    Ok((_, count)) => self.words(&words[..count]),
                    Err(refusal) => self.refusal(refusal),
                }
            }
            DRM => {
                let mut system = [0; drm::MOST_SYSTEM_WORDS];
                let mut words = [0; drm::MOST_WORDS];
                match drm::Unit::read(frame.body, &mut system, &mut words) {
                    Ok((_, counts)) => self.words(&words[..counts.words]),
                    Err(refusal) => self.refusal(refusal),
                }
            }
            _ => self.refusal(Refusal::Other),
        }
    }

    #[inline]
    fn words(&mut self, words: &[u64]) -> io::Result<()> {
        words.iter().try_for_each(|&word| self.word(word))
    }

    #[inline]
    fn word(&mut self, word: u64) -> io::Result<()> {
        let step = self.assembler.step(word);
        self.assembler = step.next;
        match step.answer {
            Answer::Report(report) => self.report(&report),
            Answer::Refused(refusal) => self.refusal(refusal),
            Answer::Nothing | Answer::Tuning(_) | Answer::Administration(_) => Ok(()),
        }
    }

    fn report(&mut self, report: &Report) -> io::Result<()> {
        self.reports += 1;
        let mut line = Line::new();
        line.number(self.reports);
        line.text(if report.multi { b" M" } else { b" S" });
        for field in [
            report.head.event,
            report.head.location,
            report.head.direction.into(),
            report.head.extent.into(),
            report.diversion.into(),
            report.duration.into(),
            report.items.count.into(),
        ] {
            line.text(b" ");
            line.number(field.into());
        }
        self.out.write_all(line.end())
    }

    #[cold]
    fn refusal(&mut self, refusal: Refusal) -> io::Result<()> {
        let mut line = Line::new();
        line.text(b"! ");
        line.number(self.frames);
        line.text(b" ");
        line.number(refusal.number().into());
        if let Some(at) = refusal.broken_at() {
            line.text(b" ");
            line.number(at.into());
        }
        self.out.write_all(line.end())
    }
}

/// One line of the listing: at most two numbers of 20 digits and seven of 5.
struct Line {
    bytes: [u8; 96],
    length: usize,
}

impl Line {
    fn new() -> Self {
        Self {
            bytes: [0; 96],
            length: 0,
        }
    }

    #[inline]
    fn text(&mut self, text: &[u8]) {
        self.bytes[self.length..][..text.len()].copy_from_slice(text);
        self.length += text.len();
    }

    #[inline]
    fn number(&mut self, mut number: u64) {
        let mut digits = [0; 20];
        let mut at = digits.len();
        loop {
            at -= 1;
            digits[at] = b'0' + (number % 10) as u8;
            number /= 10;
            if number == 0 {
                break;
            }
        }
        self.text(&digits[at..]);
    }

    fn end(&mut self) -> &[u8] {
        self.text(b"\n");
        &self.bytes[..self.length]
    }
}

/// Lists the recording that `input` gives.
pub fn list(mut input: impl Read, output: impl Write) -> io::Result<()> {
    const BUFFER: usize = 1 << 16;
    let mut listing = Listing {
        out: BufWriter::with_capacity(BUFFER, output),
        run: Run::None,
        assembler: Assembler::Empty,
        frames: 0,
        reports: 0,
    };
    listing.out.write_all(HEADER)?;
    let mut buffer = vec![0; BUFFER].into_boxed_slice();
    let (mut start, mut end) = (0, 0);
    let mut ended = false;
    loop {
        // A whole frame, unless the input ends before.
        while !ended && end - start < LENGTH + MOST_LENGTH {
            if start > 0 {
                buffer.copy_within(start..end, 0);
                end -= start;
                start = 0;
            }
            match input.read(&mut buffer[end..]) {
                Ok(0) => ended = true,
                Ok(count) => end += count,
                Err(error) if error.kind() == ErrorKind::Interrupted => {}
                Err(error) => return Err(error),
            }
        }
        if start == end {
            break;
        }
        listing.frames += 1;
        match Frame::read(&buffer[start..end]) {
            Ok((frame, length)) => {
                listing.frame(frame)?;
                start += length;
            }
            Err(refusal) => {
                listing.refusal(refusal)?;
                break;
            }
        }
    }
    listing.out.flush()
}

#[cfg(test)]
mod tests {
    use super::*;

    const HEAD: &str = "no form event location dir extent div dur items\n";
    const GROUP: [u8; 12] = [
        0x0A, 0x00, 0x01, 0x00, 0x52, 0x01, 0x80, 0x0B, 0x50, 0x65, 0x30, 0x39,
    ];
    const FIG_FRAME: [u8; 16] = [
        14, 0, 2, 0, 0xAB, 0x09, 0x14, 0x4C, 0x88, 0x0F, 0xA0, 0x90, 0xD4, 0x08, 0x00, 0x00,
    ];

    fn listed(input: &[u8]) -> String {
        let mut output = Vec::new();
        list(input, &mut output).unwrap();
        let output = String::from_utf8(output).unwrap();
        output.strip_prefix(HEAD).unwrap().to_owned()
    }

    #[test]
    fn worked_recording() {
        assert_eq!(listed(&GROUP.repeat(2)), "1 S 101 12345 1 2 0 3 0\n");
        assert_eq!(listed(&GROUP), "");
        assert_eq!(listed(&[]), "");
        assert_eq!(listed(&FIG_FRAME), "1 M 401 500 0 1 0 2 2\n");
    }

    #[test]
    fn refusals() {
        assert_eq!(listed(&[7]), "! 1 1\n");
        assert_eq!(listed(&[1, 0, 0, 0]), "! 1 1\n");
        assert_eq!(listed(&[131, 0]), "! 1 1\n");
        assert_eq!(listed(&GROUP[..11]), "! 1 1\n");
        let mut input = vec![2, 0, 9, 0];
        input.extend(GROUP);
        input.extend([3, 0, 2, 0, 0]);
        input.extend(GROUP);
        assert_eq!(listed(&input), "! 1 2\n! 3 1\n1 S 101 12345 1 2 0 3 0\n");
    }

    #[test]
    fn longer_than_the_buffer() {
        let input = FIG_FRAME.repeat(10_000);
        let output = listed(&input);
        assert_eq!(output.lines().count(), 10_000);
        assert_eq!(output.lines().last(), Some("10000 M 401 500 0 1 0 2 2"));
    }

    #[test]
    fn written_frames_read_back() {
        let body = [1; drm::MOST_BYTES];
        let frame = Frame {
            kind: DRM,
            body: &body,
        };
        let mut out = Vec::new();
        frame.write(&mut out).unwrap();
        assert_eq!(Frame::read(&out), Ok((frame, 132)));
    }
}
