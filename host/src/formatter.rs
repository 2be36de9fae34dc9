//! Formatters: a template that was read, and the lines it makes.

use crate::room::{grown, FIRST_ROOM};
use crate::scratch::{lent, LINE};
use crate::{line, names_timestamp, FormatterConfig, HostRecord, RawRecord, Record, Refusal, Settings};
use std::io;

/// The methods of both formatters, which differ in the records that they take.
macro_rules! formatter {
    ($formatter:ident, $record:ident, host: $host:literal) => {
        impl $formatter {
            /// A formatter by this configuration. The template is checked here, so only records are refused later.
            ///
            /// # Errors
            /// Refusals 1 to 9, and 17 where the settings are strict: what is wrong with the template.
            pub fn new(config: FormatterConfig) -> Result<Self, Refusal> {
                Lines::new(config, $host).map(|lines| $formatter { lines })
            }

            /// The line of a record, without a newline at its end.
            ///
            /// # Errors
            /// [`FieldTooLong`](Refusal::FieldTooLong) where a text of the record is over 4,096 bytes, or its head over 32.
            pub fn format(&self, record: &$record) -> Result<String, Refusal> {
                let mut line = String::new();
                self.append(record, &mut line).map(|()| line)
            }

            /// Writes the line of a record to the front of `out` and gives its length.
            ///
            /// Nothing is allocated but the room in which records are laid out: each thread makes it once and keeps it,
            /// some 32 KiB at most.
            ///
            /// ```
            /// use pralakuon::*;
            ///
            /// let config = FormatterConfig::custom("[{L}] {s}");
            #[doc = concat!("let formatter = ", stringify!($formatter), "::new(config)?;")]
            /// let mut out = vec![0; 10];
            #[doc = concat!("let record = ", stringify!($record), "::new(Level::Info, \"hello\");")]
            /// if let Err(Refusal::LineTooLong { needed }) = formatter.format_into(&record, &mut out) {
            ///     out.resize(needed, 0);
            /// }
            /// let length = formatter.format_into(&record, &mut out)?;
            /// assert_eq!(&out[..length], b"[INFO ] hello");
            /// # Ok::<(), Refusal>(())
            /// ```
            ///
            /// # Errors
            /// [`FieldTooLong`](Refusal::FieldTooLong), and [`LineTooLong`](Refusal::LineTooLong) where `out` is too
            /// short. A refusal leaves `out` as it was.
            pub fn format_into(&self, record: &$record, out: &mut [u8]) -> Result<usize, Refusal> {
                self.lines.format_into(record.into(), out)
            }

            /// Puts the line of a record at the end of a text, without a newline. A text that is used again and again
            /// is not allocated anew.
            ///
            /// ```
            /// use pralakuon::*;
            ///
            /// let config = FormatterConfig::custom("[{L}] {s}");
            #[doc = concat!("let formatter = ", stringify!($formatter), "::new(config)?;")]
            /// let mut line = String::new();
            /// for message in ["hello", "again"] {
            ///     line.clear();
            #[doc = concat!("    formatter.append(&", stringify!($record), "::new(Level::Info, message), &mut line)?;")]
            ///     assert_eq!(line, format!("[INFO ] {message}"));
            /// }
            /// # Ok::<(), pralakuon::Refusal>(())
            /// ```
            ///
            /// # Errors
            #[doc = concat!("As [`format`](", stringify!($formatter), "::format).")]
            /// A refusal leaves the text as it was.
            pub fn append(&self, record: &$record, out: &mut String) -> Result<(), Refusal> {
                self.lines.made(record.into(), |room, length| {
                    out.push_str(std::str::from_utf8(&room[..length]).expect("texts of UTF-8 make a line of UTF-8"));
                })
            }

            /// Writes the line of a record and a newline to a file, a socket or the like, in one piece.
            ///
            /// ```
            /// use pralakuon::*;
            /// use std::io;
            ///
            /// let config = FormatterConfig::custom("[{L}] {s}");
            #[doc = concat!("let formatter = ", stringify!($formatter), "::new(config)?;")]
            #[doc = concat!("let record = ", stringify!($record), "::new(Level::Info, \"hello\");")]
            /// formatter.write_line(&record, &mut io::stdout())?;
            ///
            /// let long = "x".repeat(4_097);
            /// let error = formatter.write_line(&record.with_message(&long), &mut io::stdout()).unwrap_err();
            /// let refusal = error.get_ref().and_then(|inner| inner.downcast_ref());
            /// assert_eq!(refusal, Some(&Refusal::FieldTooLong));
            /// # Ok::<(), io::Error>(())
            /// ```
            ///
            /// # Errors
            /// What the writer fails with. A refusal is an error of the kind
            /// [`InvalidData`](io::ErrorKind::InvalidData) with the [`Refusal`] inside, and nothing is written then.
            pub fn write_line(&self, record: &$record, out: &mut (impl io::Write + ?Sized)) -> io::Result<()> {
                self.lines.made(record.into(), |room, length| {
                    // The room keeps its length, so that nothing is cleared for the next line.
                    room.resize(room.len().max(length + 1), 0);
                    room[length] = b'\n';
                    out.write_all(&room[..=length])
                })?
            }

            /// Whether the template names the time, `{t}`.
            #[must_use]
            pub fn names_timestamp(&self) -> bool {
                self.lines.names_timestamp
            }

            /// The template.
            #[must_use]
            pub fn template(&self) -> &str {
                &self.lines.template
            }

            /// The settings.
            #[must_use]
            pub fn settings(&self) -> Settings {
                self.lines.settings
            }
        }
    };
}

/// Makes lines of the device's records.
///
/// ```
/// use pralakuon::{Formatter, FormatterConfig, Level, Record};
///
/// let formatter = Formatter::new(FormatterConfig::custom("[{L}] {s}"))?;
/// assert_eq!(formatter.format(&Record::new(Level::Info, "hello"))?, "[INFO ] hello");
/// assert!(!formatter.names_timestamp());
/// # Ok::<(), pralakuon::Refusal>(())
/// ```
#[derive(Clone, Debug, PartialEq, Eq, Hash)]
pub struct Formatter {
    lines: Lines,
}

formatter!(Formatter, Record, host: false);

/// Makes lines of the host's records. Built-in templates mark them at the end, and `{t}` is `<time>`.
///
/// ```
/// use pralakuon::{FormatterConfig, HostFormatter, HostRecord, Level};
///
/// let formatter = HostFormatter::new(FormatterConfig::default())?;
/// assert_eq!(formatter.format(&HostRecord::new(Level::Warn, "tilted"))?, "WARN  tilted (HOST)");
/// # Ok::<(), pralakuon::Refusal>(())
/// ```
#[derive(Clone, Debug, PartialEq, Eq, Hash)]
pub struct HostFormatter {
    lines: Lines,
}

formatter!(HostFormatter, HostRecord, host: true);

/// What both formatters are.
#[derive(Clone, Debug, PartialEq, Eq, Hash)]
struct Lines {
    template: String,
    settings: Settings,
    names_timestamp: bool,
}

impl Lines {
    fn new(config: FormatterConfig, host: bool) -> Result<Self, Refusal> {
        let template = config.template(host)?;
        // Asking for the time refuses what a check refuses, so one reading of the template is enough.
        let names_timestamp = names_timestamp(template.as_bytes(), config.settings)?;
        Ok(Lines { template, settings: config.settings, names_timestamp })
    }

    fn format_into(&self, record: RawRecord, out: &mut [u8]) -> Result<usize, Refusal> {
        line(self.template.as_bytes(), self.settings, record, out)
    }

    /// Makes the line at the front of the thread's room and hands that on with the line's length.
    fn made<T>(&self, record: RawRecord, hand_on: impl FnOnce(&mut Vec<u8>, usize) -> T) -> Result<T, Refusal> {
        lent(&LINE, |room| {
            // What an earlier line left is not cleared: only the line's own bytes are looked at.
            if room.len() < FIRST_ROOM {
                room.resize(FIRST_ROOM, 0);
            }
            let length = grown(room, |out| self.format_into(record, out))?;
            Ok(hand_on(room, length))
        })
    }
}
