//! The structs of `include/alertc.h`, laid out as C lays them out.

use std::mem::{offset_of, size_of};

/// The most items of a report.
pub const ITEMS: usize = 28;
/// Bytes of a record of the message table.
pub const RECORD_BYTES: usize = 42;
/// What a take does when the table is full: drops a record, or keeps all and refuses the report.
pub const DROP: u8 = 0;
pub const KEEP: u8 = 1;

/// The bit at which content broke that is refused (7, 8), or [`NOT_BROKEN`].
#[repr(transparent)]
#[derive(Clone, Copy, Debug, PartialEq, Eq)]
pub struct BrokenAt(pub u8);

/// In every other answer.
pub const NOT_BROKEN: BrokenAt = BrokenAt(255);

impl Default for BrokenAt {
    fn default() -> Self {
        NOT_BROKEN
    }
}

impl From<Option<u8>> for BrokenAt {
    fn from(at: Option<u8>) -> Self {
        at.map_or(NOT_BROKEN, Self)
    }
}

/// Structs of numbers, each with its size in bytes.
macro_rules! values {
    ($($(#[$doc:meta])* $name:ident, $size:literal { $($field:ident: $type:ty,)* })*) => {$(
        $(#[$doc])*
        #[repr(C)]
        #[derive(Clone, Copy, Debug, Default, PartialEq, Eq)]
        pub struct $name {
            $(pub $field: $type,)*
        }

        const _: () = assert!(size_of::<$name>() == $size);
    )*};
}

values! {
    Item, 4 {
        label: u16,
        value: u16,
    }

    /// What a single-group message and a first group share. In the header its fields stand in the
    /// structs themselves, laid out alike.
    Head, 6 {
        direction: u8,
        extent: u8,
        event: u16,
        location: u16,
    }

    /// The items after their count are 0. Form 0 is a single-group report, 1 a multi-group one.
    /// The real location is 0 but in an INTER-ROAD report: a multi-group one with an FLT code.
    Report, 136 {
        items: [Item; ITEMS],
        item_count: usize,
        head: Head,
        real_location: u16,
        diversion: u8,
        duration: u8,
        form: u8,
    }

    /// How many words or bytes were written.
    Written, 16 {
        count: usize,
        refusal: u8,
    }

    /// The assembler's state, all 0 while no message is open.
    Assembler, 24 {
        ci: u8,
        first_group: Head,
        gsi: u8,
        later_groups: u8,
        contents: [u32; 3],
    }

    /// Kind 0 is nothing yet, 1 a report, 2 a tuning word, 3 an administration word.
    AssemblerAnswer, 176 {
        report: Report,
        next: Assembler,
        word: u64,
        kind: u8,
        refusal: u8,
        broken_at: BrokenAt,
    }

    /// Kind 0 is a single group, 1 a first group, 2 a later group, 3 a tuning word,
    /// 4 an administration word, 5 continuity index 7. What the kind does not have is 0.
    WordFields, 24 {
        word: u64,
        content: u32,
        head: Head,
        duration: u8,
        diversion: u8,
        ci: u8,
        second: u8,
        gsi: u8,
        kind: u8,
    }

    WordParsed, 32 {
        fields: WordFields,
        refusal: u8,
    }

    WordComposed, 16 {
        word: u64,
        refusal: u8,
    }

    /// What the variant does not have is 0.
    SystemFields, 13 {
        variant: u8,
        ltn: u8,
        afi: u8,
        mode: u8,
        international: u8,
        national: u8,
        regional: u8,
        urban: u8,
        gap: u8,
        sid: u8,
        ta: u8,
        tw: u8,
        td: u8,
    }

    SystemReading, 14 {
        fields: SystemFields,
        refusal: u8,
    }

    SystemWritten, 4 {
        word: u16,
        refusal: u8,
    }

    RdsGroup, 16 {
        pi: u16,
        tp: u8,
        pty: u8,
        word: u64,
    }

    RdsReading, 24 {
        group: RdsGroup,
        refusal: u8,
    }

    /// The last word and how often it was heard running, 2 for twice or more; all 0 before the
    /// first group.
    RdsRun, 16 {
        word: u64,
        count: u8,
    }

    /// The run after a group, and the word if it is valid now.
    RdsReceived, 32 {
        run: RdsRun,
        word: u64,
        valid: u8,
        refusal: u8,
    }

    Fig, 2 {
        d1: u8,
        tcid: u8,
    }

    FigReading, 16 {
        count: usize,
        fig: Fig,
        refusal: u8,
    }

    /// How many words, and the FIG 5/1 whose refusal ended the reading: the byte at which it
    /// begins, and its refusal; both 0 if none was refused.
    FibReading, 24 {
        count: usize,
        fig_begin: usize,
        fig_refusal: u8,
        refusal: u8,
    }

    /// What a data unit has beside its words; unused system words are 0.
    DrmUnit, 14 {
        tmchi: u8,
        short_id: u8,
        services: u8,
        country: u8,
        ecc: u8,
        lto: i8,
        system_count: u8,
        system_words: [u16; 3],
    }

    DrmReading, 24 {
        count: usize,
        unit: DrmUnit,
        refusal: u8,
    }

    Service, 3 {
        country: u8,
        ltn: u8,
        sid: u8,
    }

    /// Dropped is 1 if the record that stood in the place was dropped for the report.
    TableAnswer, 32 {
        expired: usize,
        matched: usize,
        place: usize,
        stored: u8,
        dropped: u8,
        refusal: u8,
    }

    /// How many records are used.
    Renewal, 16 {
        used: usize,
        refusal: u8,
    }

    TableReading, 152 {
        report: Report,
        service: Service,
        expiry: u32,
        used: u8,
        refusal: u8,
        broken_at: BrokenAt,
    }

    ExpiryAnswer, 8 {
        minute: u32,
        refusal: u8,
    }
}

// The fields after which the sizes leave room for another place.
const _: () = {
    assert!(offset_of!(Report, item_count) == 112);
    assert!(offset_of!(Report, head) == 120);
    assert!(offset_of!(Report, real_location) == 126);
    assert!(offset_of!(Report, form) == 130);
    assert!(offset_of!(Assembler, first_group) == 2);
    assert!(offset_of!(Assembler, contents) == 12);
    assert!(offset_of!(AssemblerAnswer, next) == 136);
    assert!(offset_of!(AssemblerAnswer, word) == 160);
    assert!(offset_of!(AssemblerAnswer, refusal) == 169);
    assert!(offset_of!(AssemblerAnswer, broken_at) == 170);
    assert!(offset_of!(WordFields, head) == 12);
    assert!(offset_of!(WordFields, kind) == 23);
    assert!(offset_of!(RdsGroup, word) == 8);
    assert!(offset_of!(RdsReceived, word) == 16);
    assert!(offset_of!(RdsReceived, refusal) == 25);
    assert!(offset_of!(FigReading, refusal) == 10);
    assert!(offset_of!(FibReading, refusal) == 17);
    assert!(offset_of!(DrmUnit, system_words) == 8);
    assert!(offset_of!(DrmReading, refusal) == 22);
    assert!(offset_of!(TableAnswer, dropped) == 25);
    assert!(offset_of!(TableAnswer, refusal) == 26);
    assert!(offset_of!(Renewal, refusal) == 8);
    assert!(offset_of!(TableReading, service) == 136);
    assert!(offset_of!(TableReading, expiry) == 140);
    assert!(offset_of!(TableReading, refusal) == 145);
    assert!(offset_of!(TableReading, broken_at) == 146);
};
