//! Session sheets, read and written. All numbers are little-endian.

use crate::bytes::Bytes;
use crate::form::Form;
use crate::line::line_in;
use crate::room::{with_room, FIRST_ROOM};
use crate::{session_into, RawRecord, Refusal, Settings};
use std::error::Error;
use std::iter::FusedIterator;
use std::{fmt, slice};

/// The number of bodies, a u16, at the front of a sheet.
const COUNT: usize = 2;

/// The length of a body, a u32, in a sheet's contents.
const LENGTH: usize = 4;

/// A session sheet, read: its records borrow from its bytes.
///
/// ```
/// use pralakuon::{Level, Record, Settings, Sheet, SheetWriter};
///
/// let mut writer = SheetWriter::new(Settings::PLAIN, b"[{L}] {s}")?;
/// writer.push(&Record::new(Level::Info, "hello"))?;
/// let bytes = writer.finish();
///
/// let sheet = Sheet::read(&bytes)?;
/// assert_eq!(sheet.template, b"[{L}] {s}");
/// assert_eq!(sheet.records[0].message, b"hello");
/// for line in sheet.lines() {
///     assert_eq!(line?, b"[INFO ] hello");
/// }
/// # Ok::<(), Box<dyn std::error::Error>>(())
/// ```
#[derive(Clone, Debug, Default, PartialEq, Eq, Hash)]
#[non_exhaustive]
pub struct Sheet<'a> {
    /// The settings.
    pub settings: Settings,
    /// Its records are laid out with heads. In a sheet without, a record whose mask marks one is refused with 14.
    pub heads: bool,
    /// The template. It may be one that is refused.
    pub template: &'a [u8],
    /// The records, in order. Each may be one that is refused.
    pub records: Vec<RawRecord<'a>>,
}

impl<'a> Sheet<'a> {
    /// The most bytes a sheet may have.
    pub const LARGEST: usize = 65_536;

    /// The most bytes a line of a sheet may have.
    pub const LARGEST_LINE: usize = 65_536;

    /// Reads a sheet. Whether it is one, the archive says: a session call without room answers that first.
    ///
    /// # Errors
    /// [`NotASheet`](Refusal::NotASheet). A refused template or record is read as it is.
    pub fn read(bytes: &'a [u8]) -> Result<Self, Refusal> {
        match session_into(bytes, &mut []) {
            Err(refusal @ (Refusal::NotASheet | Refusal::Unknown { .. } | Refusal::OtherVersion { .. })) => {
                Err(refusal)
            }
            _ => Self::taken_apart(bytes).ok_or(Refusal::NotASheet),
        }
    }

    /// The parts of what is a sheet.
    fn taken_apart(bytes: &'a [u8]) -> Option<Self> {
        let bodies = bodies(bytes)?;
        let (head, records) = bodies.split_first()?;
        let (&byte, template) = head.split_first()?;
        let (form, settings) = Form::of_byte(byte)?;
        let records = records.iter().map(|body| RawRecord::read(body, form)).collect::<Option<_>>()?;
        Some(Sheet { settings, heads: form.has_heads(), template, records })
    }

    /// The lines of its records one by one, each without a newline. They are those of [`session()`](crate::session()),
    /// and where it prints `! N` there is the refusal of that number: a line over
    /// [`LARGEST_LINE`](Sheet::LARGEST_LINE) bytes is refused with 13. Where the template is refused, each line is that
    /// refusal.
    ///
    /// ```
    /// use pralakuon::{RawRecord, Refusal, Settings, Sheet, SheetWriter};
    ///
    /// let mut writer = SheetWriter::new(Settings::PLAIN, b"<{s}>")?;
    /// writer.push(RawRecord::new().with_level(3).with_message(b"hello"))?;
    /// writer.push(RawRecord::new().with_level(3).with_message(b"\xff"))?;
    /// let bytes = writer.finish();
    ///
    /// let lines: Vec<_> = Sheet::read(&bytes)?.lines().collect();
    /// assert_eq!(lines, [Ok(b"<hello>".to_vec()), Err(Refusal::FieldNotUtf8)]);
    /// # Ok::<(), Box<dyn std::error::Error>>(())
    /// ```
    #[must_use]
    pub fn lines(&self) -> SheetLines<'_, 'a> {
        let form = Form::by(self.heads);
        SheetLines { form, template: self.template, settings: self.settings, records: self.records.iter() }
    }
}

/// The lines of a [`Sheet`], made one by one.
#[derive(Clone, Debug)]
pub struct SheetLines<'s, 'a> {
    form: Form,
    template: &'a [u8],
    settings: Settings,
    records: slice::Iter<'s, RawRecord<'a>>,
}

impl Iterator for SheetLines<'_, '_> {
    type Item = Result<Vec<u8>, Refusal>;

    fn next(&mut self) -> Option<Self::Item> {
        let record = *self.records.next()?;
        let made = with_room(FIRST_ROOM, |out| line_in(self.form, self.template, self.settings, record, out));
        Some(made.and_then(|line| match line.len() {
            needed if needed > Sheet::LARGEST_LINE => Err(Refusal::LineTooLong { needed }),
            _ => Ok(line),
        }))
    }

    fn size_hint(&self) -> (usize, Option<usize>) {
        self.records.size_hint()
    }
}

impl ExactSizeIterator for SheetLines<'_, '_> {}

impl FusedIterator for SheetLines<'_, '_> {}

/// The bodies of a sheet, as its contents say.
fn bodies(bytes: &[u8]) -> Option<Vec<&[u8]>> {
    let mut bodies = Bytes(bytes);
    let count = usize::from(bodies.u16()?);
    let mut lengths = Bytes(bodies.take(LENGTH * count)?);
    let all = (0..count).map(|_| bodies.take(lengths.u32()?.try_into().ok()?)).collect::<Option<_>>()?;
    bodies.end()?;
    Some(all)
}

/// Writes a session sheet, record by record.
///
/// All records of a sheet are laid out alike, with heads or without. A sheet without is what it was before there were
/// heads, byte for byte.
///
/// ```
/// use pralakuon::{HostRecord, Level, RawRecord, Record, Settings, Sheet, SheetWriter};
///
/// let mut writer = SheetWriter::new(Settings::STRAIGHT_COLOUR, b"{s}")?;
/// writer.push(&Record::new(Level::Info, "from the device"))?;
/// writer.push(&HostRecord::new(Level::Info, "from the host"))?;
/// writer.push(RawRecord::new().with_level(3).with_message(b"\xff, not UTF-8"))?;
///
/// let bytes = writer.finish();
/// assert_eq!(Sheet::read(&bytes)?.records.len(), 3);
/// # Ok::<(), Box<dyn std::error::Error>>(())
/// ```
#[derive(Clone, Debug, PartialEq, Eq, Hash)]
pub struct SheetWriter {
    settings: Settings,
    template: Vec<u8>,
    form: Form,
    /// The form stays, whatever the records have.
    settled: bool,
    /// Of the records, which lie in `bodies` one after the other.
    lengths: Vec<u32>,
    bodies: Vec<u8>,
}

impl SheetWriter {
    /// A sheet without records. Any template can be written, a refused one too, as long as it fits.
    ///
    /// Records are laid out without heads until the first comes that has one. Then those before it are laid out anew, each
    /// two bytes longer, so that the sheet is one with heads and nothing of it is lost.
    ///
    /// ```
    /// use pralakuon::{session, Level, Record, Settings, Sheet, SheetWriter};
    ///
    /// let mut writer = SheetWriter::new(Settings::PLAIN, b"{d:>6} {s}")?;
    /// let record = Record::new(Level::Info, "hello");
    /// writer.push(&record)?;
    /// assert!(!Sheet::read(&writer.clone().finish())?.heads);
    ///
    /// writer.push(&record.with_head("H-07"))?;
    /// let bytes = writer.finish();
    /// assert!(Sheet::read(&bytes)?.heads);
    /// assert_eq!(session(&bytes)?, b"<head> hello\n  H-07 hello\n");
    /// # Ok::<(), Box<dyn std::error::Error>>(())
    /// ```
    ///
    /// # Errors
    /// [`SheetFull`] where the template fits in no sheet.
    pub fn new(settings: Settings, template: &[u8]) -> Result<Self, SheetFull> {
        SheetWriter::begun(settings, template, Form::Old, false)
    }

    /// A sheet without records whose records are laid out with heads, or without, whatever they have: for a sheet that is
    /// to be as another one is. Without heads, a record that has one is written as a record that is refused, with 14.
    ///
    /// ```
    /// use pralakuon::{RawRecord, Settings, Sheet, SheetWriter};
    ///
    /// let mut writer = SheetWriter::with_heads(Settings::PLAIN, b"{s}", true)?;
    /// writer.push(RawRecord::new().with_message(b"a print without a head"))?;
    /// let bytes = writer.finish();
    ///
    /// let sheet = Sheet::read(&bytes)?;
    /// let mut copy = SheetWriter::with_heads(sheet.settings, sheet.template, sheet.heads)?;
    /// sheet.records.iter().try_for_each(|record| copy.push(record))?;
    /// assert_eq!(copy.finish(), bytes);
    /// # Ok::<(), Box<dyn std::error::Error>>(())
    /// ```
    ///
    /// # Errors
    /// [`SheetFull`] where the template fits in no sheet.
    pub fn with_heads(settings: Settings, template: &[u8], heads: bool) -> Result<Self, SheetFull> {
        SheetWriter::begun(settings, template, Form::by(heads), true)
    }

    fn begun(settings: Settings, template: &[u8], form: Form, settled: bool) -> Result<Self, SheetFull> {
        let (needed, left) = (template.len().saturating_add(1 + LENGTH), Sheet::LARGEST - COUNT);
        if needed > left {
            return Err(SheetFull { needed, left, left_at_first: left });
        }
        let template = template.to_vec();
        Ok(SheetWriter { settings, template, form, settled, lengths: Vec::new(), bodies: Vec::new() })
    }

    /// Adds a record of any kind, a refused one too, as long as it fits.
    ///
    /// # Errors
    /// [`SheetFull`] where it doesn't fit. The sheet is left as it was.
    pub fn push<'r>(&mut self, record: impl Into<RawRecord<'r>>) -> Result<(), SheetFull> {
        let record = record.into();
        let form = self.form_with(&record);
        let (size, left) = (record.size(form), Sheet::LARGEST.saturating_sub(self.size_in(form)));
        let needed = size.saturating_add(LENGTH);
        if needed > left {
            return Err(SheetFull { needed, left, left_at_first: Sheet::LARGEST - self.empty_size() });
        }
        if form != self.form {
            self.lay_out_anew(form);
        }
        self.lengths.push(size as u32);
        record.lay_out(form, &mut self.bodies);
        Ok(())
    }

    /// The bytes that the sheet has so far.
    #[must_use]
    pub fn size(&self) -> usize {
        self.size_in(self.form)
    }

    /// The sheet.
    #[must_use]
    pub fn finish(self) -> Vec<u8> {
        let count = u16::try_from(1 + self.lengths.len()).expect("a sheet has room for some thousand bodies only");
        let head_length = 1 + self.template.len() as u32;
        let mut sheet = Vec::with_capacity(self.size());
        sheet.extend(count.to_le_bytes());
        sheet.extend([head_length].iter().chain(&self.lengths).flat_map(|length| length.to_le_bytes()));
        sheet.push(self.form.byte(self.settings));
        sheet.extend(self.template);
        sheet.extend(self.bodies);
        sheet
    }

    /// The bytes that it has without records.
    fn empty_size(&self) -> usize {
        COUNT + LENGTH + 1 + self.template.len()
    }

    /// The bytes that it would have in a form that is this one, or the longer one.
    fn size_in(&self, form: Form) -> usize {
        let each = LENGTH + form.numbers() - self.form.numbers();
        self.empty_size() + each * self.lengths.len() + self.bodies.len()
    }

    /// The form in which this record can be added.
    fn form_with(&self, record: &RawRecord) -> Form {
        if self.settled || self.form.has_heads() {
            self.form
        } else {
            record.form()
        }
    }

    fn lay_out_anew(&mut self, form: Form) {
        let mut rest = Bytes(&self.bodies);
        let mut bodies = Vec::new();
        for length in &mut self.lengths {
            let body = rest.take(*length as usize);
            let record = body.and_then(|body| RawRecord::read(body, self.form)).expect("a record as it was laid out");
            record.lay_out(form, &mut bodies);
            *length = record.size(form) as u32;
        }
        self.bodies = bodies;
        self.form = form;
    }
}

/// A sheet has no room for a record, or for its template.
///
/// ```
/// use pralakuon::{Record, Settings, SheetFull, SheetWriter};
///
/// /// Sheets of these messages, each as full as can be.
/// fn sheets(messages: &[&str]) -> Result<Vec<Vec<u8>>, SheetFull> {
///     let new = || SheetWriter::new(Settings::PLAIN, b"{s}");
///     let (mut done, mut writer) = (Vec::new(), new()?);
///     for message in messages {
///         let record = Record::print(message);
///         match writer.push(&record) {
///             Err(full) if full.fits_a_new_sheet() => {
///                 done.push(std::mem::replace(&mut writer, new()?).finish());
///                 writer.push(&record)?;
///             }
///             pushed => pushed?,
///         }
///     }
///     done.push(writer.finish());
///     Ok(done)
/// }
///
/// assert_eq!(sheets(&["x".repeat(40_000).as_str(); 3])?.len(), 3);
/// assert!(sheets(&["x".repeat(70_000).as_str()]).is_err());
/// # Ok::<(), SheetFull>(())
/// ```
#[derive(Clone, Copy, Debug, PartialEq, Eq, Hash)]
#[non_exhaustive]
pub struct SheetFull {
    /// The bytes that it takes, its place in the contents among them.
    pub needed: usize,
    /// The bytes that are left in the sheet. With the first head of a sheet, those that would be left with its records laid
    /// out anew.
    pub left: usize,
    /// The bytes that were left before there was a record.
    left_at_first: usize,
}

impl SheetFull {
    /// Whether a new sheet with the same template has room for it. Where it has not, no sheet with that template has.
    #[must_use]
    pub fn fits_a_new_sheet(self) -> bool {
        self.needed <= self.left_at_first
    }
}

impl fmt::Display for SheetFull {
    fn fmt(&self, out: &mut fmt::Formatter<'_>) -> fmt::Result {
        let (needed, left, at_most) = (self.needed, self.left, self.left_at_first);
        if self.fits_a_new_sheet() {
            write!(out, "the sheet is full: {needed} bytes are needed and {left} are left; a new sheet has room")
        } else {
            write!(out, "no sheet has room: {needed} bytes are needed and {at_most} are there at most")
        }
    }
}

impl Error for SheetFull {}
