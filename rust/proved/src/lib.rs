//! The proved library's C interface: its structs, and its calls on slices.

#![deny(warnings)]

mod values;

pub use values::*;

mod c {
    use crate::values::*;

    extern "C" {
        pub fn alertc_word_parse(word: u64) -> WordParsed;
        pub fn alertc_word_compose(fields: WordFields) -> WordComposed;
        pub fn alertc_system_read(word: u16) -> SystemReading;
        pub fn alertc_system_write(fields: SystemFields) -> SystemWritten;
        pub fn alertc_report_write(
            report: Report,
            ci: u8,
            words: *mut u64,
            words_len: usize,
        ) -> Written;
        pub fn alertc_assembler_step(state: Assembler, word: u64) -> AssemblerAnswer;
        pub fn alertc_rds_read(bytes: *const u8, bytes_len: usize) -> RdsReading;
        pub fn alertc_rds_write(group: RdsGroup, out: *mut u8, out_len: usize) -> u8;
        pub fn alertc_rds_receive(run: RdsRun, bytes: *const u8, bytes_len: usize) -> RdsReceived;
        pub fn alertc_fig_read(
            bytes: *const u8,
            bytes_len: usize,
            words: *mut u64,
            words_len: usize,
        ) -> FigReading;
        pub fn alertc_fib_read(
            bytes: *const u8,
            bytes_len: usize,
            words: *mut u64,
            words_len: usize,
            origins: *mut u8,
            origins_len: usize,
        ) -> FibReading;
        pub fn alertc_drm_read(
            bytes: *const u8,
            bytes_len: usize,
            words: *mut u64,
            words_len: usize,
        ) -> DrmReading;
        pub fn alertc_drm_write(
            unit: DrmUnit,
            words: *const u64,
            words_len: usize,
            out: *mut u8,
            out_len: usize,
        ) -> Written;
        pub fn alertc_check_word(bytes: *const u8, bytes_len: usize) -> u16;
        pub fn alertc_table_take(
            table: *mut u8,
            table_len: usize,
            catalogue: *const u16,
            catalogue_len: usize,
            lives: *const u16,
            lives_len: usize,
            clock: *mut u32,
            report: Report,
            service: Service,
            minute: u32,
            lto: i8,
            when_full: u8,
        ) -> TableAnswer;
        pub fn alertc_table_expire(
            table: *mut u8,
            table_len: usize,
            clock: *mut u32,
            minute: u32,
        ) -> TableAnswer;
        pub fn alertc_table_renew(
            table: *mut u8,
            table_len: usize,
            catalogue: *const u16,
            catalogue_len: usize,
        ) -> Renewal;
        pub fn alertc_table_read(table: *const u8, table_len: usize, place: usize) -> TableReading;
        pub fn alertc_record_read(record: *const u8, record_len: usize) -> TableReading;
        pub fn alertc_expiry(minute: u32, lto: i8, life: u16) -> ExpiryAnswer;
    }
}

// Each pointer below comes from a slice or reference with the length beside it, and a slice that
// is written is borrowed alone: that is all the library asks of its caller.

pub fn word_parse(word: u64) -> WordParsed {
    unsafe { c::alertc_word_parse(word) }
}

pub fn word_compose(fields: WordFields) -> WordComposed {
    unsafe { c::alertc_word_compose(fields) }
}

pub fn system_read(word: u16) -> SystemReading {
    unsafe { c::alertc_system_read(word) }
}

pub fn system_write(fields: SystemFields) -> SystemWritten {
    unsafe { c::alertc_system_write(fields) }
}

pub fn report_write(report: Report, ci: u8, words: &mut [u64]) -> Written {
    unsafe { c::alertc_report_write(report, ci, words.as_mut_ptr(), words.len()) }
}

pub fn assembler_step(state: Assembler, word: u64) -> AssemblerAnswer {
    unsafe { c::alertc_assembler_step(state, word) }
}

pub fn rds_read(bytes: &[u8]) -> RdsReading {
    unsafe { c::alertc_rds_read(bytes.as_ptr(), bytes.len()) }
}

pub fn rds_write(group: RdsGroup, out: &mut [u8]) -> u8 {
    unsafe { c::alertc_rds_write(group, out.as_mut_ptr(), out.len()) }
}

pub fn rds_receive(run: RdsRun, bytes: &[u8]) -> RdsReceived {
    unsafe { c::alertc_rds_receive(run, bytes.as_ptr(), bytes.len()) }
}

pub fn fig_read(bytes: &[u8], words: &mut [u64]) -> FigReading {
    unsafe { c::alertc_fig_read(bytes.as_ptr(), bytes.len(), words.as_mut_ptr(), words.len()) }
}

pub fn fib_read(bytes: &[u8], words: &mut [u64], origins: &mut [u8]) -> FibReading {
    unsafe {
        c::alertc_fib_read(
            bytes.as_ptr(),
            bytes.len(),
            words.as_mut_ptr(),
            words.len(),
            origins.as_mut_ptr(),
            origins.len(),
        )
    }
}

pub fn drm_read(bytes: &[u8], words: &mut [u64]) -> DrmReading {
    unsafe { c::alertc_drm_read(bytes.as_ptr(), bytes.len(), words.as_mut_ptr(), words.len()) }
}

pub fn drm_write(unit: DrmUnit, words: &[u64], out: &mut [u8]) -> Written {
    unsafe {
        c::alertc_drm_write(
            unit,
            words.as_ptr(),
            words.len(),
            out.as_mut_ptr(),
            out.len(),
        )
    }
}

pub fn check_word(bytes: &[u8]) -> u16 {
    unsafe { c::alertc_check_word(bytes.as_ptr(), bytes.len()) }
}

/// What a take is given beside the table and its clock.
#[derive(Clone, Copy, Debug)]
pub struct Taking<'a> {
    pub catalogue: &'a [u16],
    pub lives: &'a [u16],
    pub report: Report,
    pub service: Service,
    pub minute: u32,
    pub lto: i8,
    pub when_full: u8,
}

pub fn table_take(table: &mut [u8], clock: &mut u32, taking: &Taking) -> TableAnswer {
    unsafe {
        c::alertc_table_take(
            table.as_mut_ptr(),
            table.len(),
            taking.catalogue.as_ptr(),
            taking.catalogue.len(),
            taking.lives.as_ptr(),
            taking.lives.len(),
            clock,
            taking.report,
            taking.service,
            taking.minute,
            taking.lto,
            taking.when_full,
        )
    }
}

pub fn table_expire(table: &mut [u8], clock: &mut u32, minute: u32) -> TableAnswer {
    unsafe { c::alertc_table_expire(table.as_mut_ptr(), table.len(), clock, minute) }
}

pub fn table_renew(table: &mut [u8], catalogue: &[u16]) -> Renewal {
    unsafe {
        c::alertc_table_renew(
            table.as_mut_ptr(),
            table.len(),
            catalogue.as_ptr(),
            catalogue.len(),
        )
    }
}

pub fn table_read(table: &[u8], place: usize) -> TableReading {
    unsafe { c::alertc_table_read(table.as_ptr(), table.len(), place) }
}

pub fn record_read(record: &[u8]) -> TableReading {
    unsafe { c::alertc_record_read(record.as_ptr(), record.len()) }
}

pub fn expiry(minute: u32, lto: i8, life: u16) -> ExpiryAnswer {
    unsafe { c::alertc_expiry(minute, lto, life) }
}
