//! The line of one record, in a lent buffer.

use crate::answer::asked;
use crate::form::Form;
use crate::scratch::{lent, RECORD};
use crate::{entries, RawRecord, Refusal, Settings};

/// Writes the line of a record, by a template of any bytes, to the front of `out` and gives its length.
///
/// Nothing is allocated but the room in which records are laid out, which each thread makes once and keeps. A line
/// changes only its own bytes. Any kind of record can be given. For those of a [`Sheet`](crate::Sheet) there is
/// [`Sheet::lines`](crate::Sheet::lines): a sheet says for all its records whether they are laid out with heads, and here
/// a record is where it has one, or where its mask says so.
///
/// ```
/// use pralakuon::{line, Level, Record, Refusal, Settings};
///
/// let record = Record::new(Level::Info, "hello");
/// let mut out = [0; 80];
/// let length = line(b"[{L}] {s}", Settings::PLAIN, &record, &mut out)?;
/// assert_eq!(&out[..length], b"[INFO ] hello");
///
/// let short = line(b"[{L}] {s}", Settings::PLAIN, &record, &mut out[..12]);
/// assert_eq!(short, Err(Refusal::LineTooLong { needed: 13 }));
/// # Ok::<(), Refusal>(())
/// ```
///
/// # Errors
/// Refusals 1 to 14, and 17 where the settings are strict: what is wrong with the template, the record or the room. A
/// refusal leaves `out` as it was.
pub fn line<'r>(
    template: &[u8],
    settings: Settings,
    record: impl Into<RawRecord<'r>>,
    out: &mut [u8],
) -> Result<usize, Refusal> {
    let record = record.into();
    line_in(record.form(), template, settings, record, out)
}

/// The same, with the record laid out in this form, as a sheet may have settled it.
pub(crate) fn line_in(
    form: Form,
    template: &[u8],
    settings: Settings,
    record: RawRecord,
    out: &mut [u8],
) -> Result<usize, Refusal> {
    let record = record.cut();
    lent(&RECORD, |room| {
        room.clear();
        record.lay_out(form, room);
        asked(|| entries::line(template, form.byte(settings), room, out))
    })
}
