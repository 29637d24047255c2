//! A second ALERT-C reader to compare the proved one with, written from the papers and the decided
//! points of docs/DECISIONS.md without a look at the proved code.
//!
//! Bytes go through a carrier ([`rds`], [`fig`], [`drm`]) to 37-bit [`word`]s, through the
//! [`assembler`] to a [`report`], and from there into the message [`table`]. FIGs come alone or in
//! a block ([`fib`]).

#![deny(warnings)]
#![forbid(unsafe_code)]

pub mod assembler;
pub mod clock;
pub mod content;
pub mod crc;
pub mod drm;
pub mod fib;
pub mod fig;
pub mod inter_road;
pub mod rds;
pub mod recording;
pub mod report;
pub mod system;
pub mod table;
pub mod word;

mod bits;

/// Why a call was refused.
#[derive(Clone, Copy, Debug, PartialEq, Eq)]
pub enum Refusal {
    /// Wrong length.
    Length,
    /// Other group, FIG, AID, variant or kind.
    Other,
    /// Reserved bit, m = 0 or padding.
    Reserved,
    /// The check word disagrees.
    Crc,
    /// Later group out of turn.
    OutOfTurn,
    /// Continuity index 7.
    Index7,
    /// Content that does not read as items from this bit on.
    Content { at: u8 },
    /// Label 15 at this bit of the content.
    Label15 { at: u8 },
    /// Report, field, word or state unfit.
    Unfit,
    /// Table, catalogue or lives malformed.
    Malformed,
    /// Event unknown to the catalogue.
    UnknownEvent,
    /// A location's code is an FLT code.
    Foreign,
    /// The minute goes back or is too large.
    Minute,
    /// No room in the table.
    NoRoom,
    /// Lent buffer too small.
    Buffer,
}

impl Refusal {
    /// The number of the rules, 1 to 15.
    #[inline]
    pub const fn number(self) -> u8 {
        match self {
            Self::Length => 1,
            Self::Other => 2,
            Self::Reserved => 3,
            Self::Crc => 4,
            Self::OutOfTurn => 5,
            Self::Index7 => 6,
            Self::Content { .. } => 7,
            Self::Label15 { .. } => 8,
            Self::Unfit => 9,
            Self::Malformed => 10,
            Self::UnknownEvent => 11,
            Self::Foreign => 12,
            Self::Minute => 13,
            Self::NoRoom => 14,
            Self::Buffer => 15,
        }
    }

    /// For 7 and 8 the bit of the content, from 0, at which the item begins that could not be
    /// taken; a real location's bits count.
    #[inline]
    pub const fn broken_at(self) -> Option<u8> {
        match self {
            Self::Content { at } | Self::Label15 { at } => Some(at),
            _ => None,
        }
    }
}

/// `Ok` if `fit`, else the refusal.
#[inline]
fn require(fit: bool, refusal: Refusal) -> Result<(), Refusal> {
    if fit {
        Ok(())
    } else {
        Err(refusal)
    }
}
