//! A record by its numbers and bytes: the one way from records to their layout, and back.

use crate::bytes::Bytes;
use crate::form::Form;
use crate::{HostRecord, Level, Record};

/// One byte more than a field may have. A text cut here is refused as the whole would be, with 11, and it has a length
/// that the layout can hold.
const CUT: usize = Record::LONGEST_TEXT + 1;

/// The same for a head's serial.
const HEAD_CUT: usize = Record::LONGEST_HEAD + 1;

/// A record by its numbers and bytes, as a session sheet holds it. Nothing of it is checked: what is wrong with it, the
/// line call says.
///
/// A file, a line, a module or a head that is given is marked as present in the mask. Whoever wants another mask gives it
/// last, with [`with_mask`](RawRecord::with_mask), which takes any byte as it is.
///
/// ```
/// use pralakuon::{line, RawRecord, Refusal, Settings};
///
/// let record = RawRecord::new().with_level(3).with_file(b"gauge.rs").with_message(b"hello");
/// assert_eq!(record.mask, RawRecord::FILE);
/// assert_eq!(line(b"{F}: {s}", Settings::PLAIN, record, &mut [0; 80]), Ok(15));
///
/// // A host's record must have a level, and a file that is there must be marked.
/// for wrong in [record.with_source(RawRecord::HOST).with_level(0), record.with_mask(0)] {
///     assert_eq!(line(b"{s}", Settings::PLAIN, wrong, &mut [0; 80]), Err(Refusal::NotARecord));
/// }
/// ```
#[derive(Clone, Copy, Debug, Default, PartialEq, Eq, Hash)]
#[non_exhaustive]
pub struct RawRecord<'a> {
    /// [`DEVICE`](RawRecord::DEVICE) or [`HOST`](RawRecord::HOST).
    pub source: u8,
    /// A level's number, or 0 for none.
    pub level: u8,
    /// What is present: [`FILE`](RawRecord::FILE), [`LINE`](RawRecord::LINE), [`MODULE`](RawRecord::MODULE),
    /// [`HEAD`](RawRecord::HEAD).
    pub mask: u8,
    /// 0 where it is absent.
    pub line: u32,
    /// Empty where it is absent.
    pub file: &'a [u8],
    /// Empty where it is absent.
    pub module_path: &'a [u8],
    /// Empty where it is not known.
    pub timestamp: &'a [u8],
    /// What happened.
    pub message: &'a [u8],
    /// The serial of the head that measured it. Empty where it is absent.
    pub head: &'a [u8],
}

impl<'a> RawRecord<'a> {
    /// The source of a device's record.
    pub const DEVICE: u8 = 0;
    /// The source of a host's record.
    pub const HOST: u8 = 1;
    /// In the mask: there is a file.
    pub const FILE: u8 = 1;
    /// In the mask: there is a line.
    pub const LINE: u8 = 2;
    /// In the mask: there is a module.
    pub const MODULE: u8 = 4;
    /// In the mask: there is a head.
    pub const HEAD: u8 = 8;

    /// A print of the device with an empty message.
    #[must_use]
    pub fn new() -> Self {
        RawRecord::default()
    }

    /// With this source.
    #[must_use]
    pub fn with_source(mut self, source: u8) -> Self {
        self.source = source;
        self
    }

    /// With a level's number, or 0 for none.
    #[must_use]
    pub fn with_level(mut self, level: u8) -> Self {
        self.level = level;
        self
    }

    /// With a file, which is marked as present.
    #[must_use]
    pub fn with_file(mut self, file: &'a [u8]) -> Self {
        self.file = file;
        self.mask |= Self::FILE;
        self
    }

    /// With a line, which is marked as present.
    #[must_use]
    pub fn with_line(mut self, line: u32) -> Self {
        self.line = line;
        self.mask |= Self::LINE;
        self
    }

    /// With a module, which is marked as present.
    #[must_use]
    pub fn with_module_path(mut self, module_path: &'a [u8]) -> Self {
        self.module_path = module_path;
        self.mask |= Self::MODULE;
        self
    }

    /// With this timestamp.
    #[must_use]
    pub fn with_timestamp(mut self, timestamp: &'a [u8]) -> Self {
        self.timestamp = timestamp;
        self
    }

    /// With this message.
    #[must_use]
    pub fn with_message(mut self, message: &'a [u8]) -> Self {
        self.message = message;
        self
    }

    /// With a head's serial, which is marked as present.
    #[must_use]
    pub fn with_head(mut self, head: &'a [u8]) -> Self {
        self.head = head;
        self.mask |= Self::HEAD;
        self
    }

    /// With this mask in place of what was marked before, whatever is present.
    #[must_use]
    pub fn with_mask(mut self, mask: u8) -> Self {
        self.mask = mask;
        self
    }

    /// With what is known of where it comes from.
    fn coming_from(
        mut self,
        file: Option<&'a str>,
        line: Option<u32>,
        module_path: Option<&'a str>,
        head: Option<&'a str>,
    ) -> Self {
        if let Some(file) = file {
            self = self.with_file(file.as_bytes());
        }
        if let Some(line) = line {
            self = self.with_line(line);
        }
        if let Some(module_path) = module_path {
            self = self.with_module_path(module_path.as_bytes());
        }
        if let Some(head) = head {
            self = self.with_head(head.as_bytes());
        }
        self
    }

    /// The form that it needs: the old one, unless it speaks of a head.
    pub(crate) fn form(&self) -> Form {
        Form::by(self.mask & Self::HEAD != 0 || !self.head.is_empty())
    }

    fn texts(&self) -> [&'a [u8]; Form::WithHeads.texts()] {
        [self.file, self.module_path, self.timestamp, self.message, self.head]
    }

    /// The same record with texts that can be laid out. A cut text is still refused.
    pub(crate) fn cut(self) -> Self {
        let cut = |text: &'a [u8], longest| text.get(..longest).unwrap_or(text);
        RawRecord {
            file: cut(self.file, CUT),
            module_path: cut(self.module_path, CUT),
            timestamp: cut(self.timestamp, CUT),
            message: cut(self.message, CUT),
            head: cut(self.head, HEAD_CUT),
            ..self
        }
    }

    /// The bytes of its layout. Saturating, since one huge text may be lent several times.
    pub(crate) fn size(&self, form: Form) -> usize {
        self.texts()[..form.texts()].iter().fold(form.numbers(), |sum, text| sum.saturating_add(text.len()))
    }

    /// The old form has no place for a head. One that is marked all the same has the record refused, with 14, where it
    /// would be lost without a word.
    fn mask_in(&self, form: Form) -> u8 {
        if form.has_heads() || self.head.is_empty() {
            self.mask
        } else {
            self.mask | Self::HEAD
        }
    }

    /// What stands before the texts, in the longer form; of the shorter one it is the front.
    fn numbers(&self, form: Form) -> [u8; Form::WithHeads.numbers()] {
        let mut numbers = [0; Form::WithHeads.numbers()];
        numbers[..3].copy_from_slice(&[self.source, self.level, self.mask_in(form)]);
        numbers[3..7].copy_from_slice(&self.line.to_le_bytes());
        for (place, text) in numbers[7..form.numbers()].chunks_exact_mut(2).zip(self.texts()) {
            let length = u16::try_from(text.len()).expect("a text to lay out is cut, or part of a sheet");
            place.copy_from_slice(&length.to_le_bytes());
        }
        numbers
    }

    /// Lays it out at the end of `out`.
    pub(crate) fn lay_out(&self, form: Form, out: &mut Vec<u8>) {
        out.extend_from_slice(&self.numbers(form)[..form.numbers()]);
        for text in &self.texts()[..form.texts()] {
            out.extend_from_slice(text);
        }
    }

    /// None for a body of the wrong size.
    pub(crate) fn read(body: &'a [u8], form: Form) -> Option<Self> {
        let mut rest = Bytes(body);
        let [source, level, mask] = rest.array()?;
        let line = rest.u32()?;
        // A text that the form has not is empty.
        let mut lengths = [0; Form::WithHeads.texts()];
        for length in &mut lengths[..form.texts()] {
            *length = rest.u16()?;
        }
        let [file, module_path, timestamp, message, head] = lengths.map(|length| rest.take(length.into()));
        rest.end()?;
        Some(RawRecord {
            source,
            level,
            mask,
            line,
            file: file?,
            module_path: module_path?,
            timestamp: timestamp?,
            message: message?,
            head: head?,
        })
    }
}

impl<'a> From<&Record<'a>> for RawRecord<'a> {
    fn from(record: &Record<'a>) -> Self {
        RawRecord::new()
            .with_level(record.level.map_or(0, Level::number))
            .coming_from(record.file, record.line, record.module_path, record.head)
            .with_timestamp(record.timestamp.as_bytes())
            .with_message(record.message.as_bytes())
    }
}

impl<'a> From<&HostRecord<'a>> for RawRecord<'a> {
    fn from(record: &HostRecord<'a>) -> Self {
        RawRecord::new()
            .with_source(RawRecord::HOST)
            .with_level(record.level.number())
            .coming_from(record.file, record.line, record.module_path, record.head)
            .with_message(record.message.as_bytes())
    }
}

impl<'a> From<&RawRecord<'a>> for RawRecord<'a> {
    fn from(record: &RawRecord<'a>) -> Self {
        *record
    }
}
