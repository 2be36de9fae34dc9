//! The archive's entries as they are: bytes and numbers in, one number out. Any bytes may be given.
//!
//! They take what is written here in every archive whose [version](crate::archive_version) works with this crate. The
//! rest of the crate compares the versions before each call. Here that is left to the caller.

use std::os::raw::c_uchar;

extern "C" {
    fn pralakuon_line(
        template: *const c_uchar,
        template_len: usize,
        settings: u8,
        record: *const c_uchar,
        record_len: usize,
        out: *mut c_uchar,
        out_len: usize,
    ) -> u64;
    fn pralakuon_session(sheet: *const c_uchar, sheet_len: usize, out: *mut c_uchar, out_len: usize) -> u64;
    fn pralakuon_check(template: *const c_uchar, template_len: usize, settings: u8) -> u64;
    fn pralakuon_timestamp(template: *const c_uchar, template_len: usize, settings: u8) -> u64;
    fn pralakuon_builtin(style: u8, location: u8, timestamp: u8, host: u8, out: *mut c_uchar, out_len: usize) -> u64;
    fn pralakuon_visible(text: *const c_uchar, text_len: usize, out: *mut c_uchar, out_len: usize) -> u64;
    fn pralakuon_version() -> u64;
}

// Why the calls are safe: each entry is proved for all bytes and asks nothing but that what it is lent is there for its
// whole length and that `out` overlaps nothing else. Slices and `&mut` guarantee both.

/// The line of a record, laid out as in a session sheet, at the front of `out`. Bit 8 of the settings says that the record
/// is laid out with a head.
#[must_use]
pub fn line(template: &[u8], settings: u8, record: &[u8], out: &mut [u8]) -> u64 {
    // SAFETY: three slices, `out` the only one that is written.
    unsafe {
        pralakuon_line(
            template.as_ptr(),
            template.len(),
            settings,
            record.as_ptr(),
            record.len(),
            out.as_mut_ptr(),
            out.len(),
        )
    }
}

/// The lines of all records of a session sheet, at the front of `out`.
#[must_use]
pub fn session(sheet: &[u8], out: &mut [u8]) -> u64 {
    // SAFETY: two slices, `out` the only one that is written.
    unsafe { pralakuon_session(sheet.as_ptr(), sheet.len(), out.as_mut_ptr(), out.len()) }
}

/// 0 for a template that is read by these settings, else its refusal.
#[must_use]
pub fn check(template: &[u8], settings: u8) -> u64 {
    // SAFETY: one slice, which is only read.
    unsafe { pralakuon_check(template.as_ptr(), template.len(), settings) }
}

/// Whether a template names `{t}`, as a length of 1 or 0, or its refusal.
#[must_use]
pub fn timestamp(template: &[u8], settings: u8) -> u64 {
    // SAFETY: one slice, which is only read.
    unsafe { pralakuon_timestamp(template.as_ptr(), template.len(), settings) }
}

/// A built-in template at the front of `out`.
#[must_use]
pub fn builtin(style: u8, location: u8, timestamp: u8, host: u8, out: &mut [u8]) -> u64 {
    // SAFETY: one slice, lent for writing.
    unsafe { pralakuon_builtin(style, location, timestamp, host, out.as_mut_ptr(), out.len()) }
}

/// What is visible of a text, at the front of `out`.
#[must_use]
pub fn visible(text: &[u8], out: &mut [u8]) -> u64 {
    // SAFETY: two slices, `out` the only one that is written.
    unsafe { pralakuon_visible(text.as_ptr(), text.len(), out.as_mut_ptr(), out.len()) }
}

/// The version of the archive: as a length 65536 x major + 256 x minor + patch.
#[must_use]
pub fn version() -> u64 {
    // SAFETY: nothing is lent. The entry has this prototype in every version of the archive.
    unsafe { pralakuon_version() }
}

/// The refusal in an answer, or 0.
#[must_use]
pub fn refusal_of(answer: u64) -> u8 {
    (answer & 255) as u8
}

/// The length in an answer: of what was written, or of what is needed where the refusal is 13.
#[must_use]
pub fn length_of(answer: u64) -> usize {
    (answer >> 8) as usize
}

/// The place in an answer where the refusal is 17. It has the bits that a length has.
#[must_use]
pub fn place_of(answer: u64) -> usize {
    length_of(answer)
}
