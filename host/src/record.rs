//! What a line tells of: records of the device and of the host.

use crate::Level;

/// The builders that both kinds of record have.
macro_rules! shared_builders {
    () => {
        /// With the path of the source file: a text, or an `Option` of one.
        #[must_use]
        pub fn with_file(mut self, file: impl Into<Option<&'a str>>) -> Self {
            self.file = file.into();
            self
        }

        /// With the line in that file: a number, or an `Option` of one.
        #[must_use]
        pub fn with_line(mut self, line: impl Into<Option<u32>>) -> Self {
            self.line = line.into();
            self
        }

        /// With the module: a text, or an `Option` of one.
        #[must_use]
        pub fn with_module_path(mut self, module_path: impl Into<Option<&'a str>>) -> Self {
            self.module_path = module_path.into();
            self
        }

        /// With the serial of the head that measured it: a text, or an `Option` of one.
        #[must_use]
        pub fn with_head(mut self, head: impl Into<Option<&'a str>>) -> Self {
            self.head = head.into();
            self
        }

        /// With this message in place of the one before.
        #[must_use]
        pub fn with_message(mut self, message: &'a str) -> Self {
            self.message = message;
            self
        }
    };
}

/// A record of the device. What is not known is left out, and the line says so in its place.
///
/// ```
/// use pralakuon::{Formatter, FormatterConfig, Level, Record};
///
/// let formatter = Formatter::new(FormatterConfig::custom("{L} {f}:{l:1} {s}"))?;
/// let record = Record::new(Level::Warn, "slow").with_file("/head/src/gauge.rs").with_line(118);
/// assert_eq!(formatter.format(&record)?, "WARN  gauge.rs:118 slow");
/// assert_eq!(formatter.format(&record.with_file(None).with_line(None))?, "WARN  <file>:0 slow");
/// // A print has no level, and its line is the message alone, laid out if it is a comparison report.
/// assert_eq!(formatter.format(&Record::print("scan ends"))?, "scan ends");
/// # Ok::<(), pralakuon::Refusal>(())
/// ```
#[derive(Clone, Copy, Debug, Default, PartialEq, Eq, Hash)]
#[non_exhaustive]
pub struct Record<'a> {
    /// None for a print.
    pub level: Option<Level>,
    /// The path of the source file: `{F}`, and `{f}` for its last components.
    pub file: Option<&'a str>,
    /// The line in that file: `{l}`.
    pub line: Option<u32>,
    /// The module: `{m}`, and `{c}` for its crate.
    pub module_path: Option<&'a str>,
    /// When it happened: `{t}`. Empty where it is not known.
    pub timestamp: &'a str,
    /// What happened: `{s}`. A comparison report, as firmware sends it when a self-test fails, is laid out (see the
    /// [overview](crate#comparison-reports)).
    pub message: &'a str,
    /// The serial of the head that measured it: `{d}`.
    pub head: Option<&'a str>,
}

impl<'a> Record<'a> {
    /// The most bytes that each of its texts but the head's serial may have. A longer one is refused with 11, and with it
    /// the record.
    pub const LONGEST_TEXT: usize = 4_096;

    /// The most bytes that a head's serial may have. A longer one is refused with 11, and with it the record.
    pub const LONGEST_HEAD: usize = 32;

    /// A record of which only level and message are known.
    #[must_use]
    pub fn new(level: Level, message: &'a str) -> Self {
        Record::print(message).with_level(level)
    }

    /// A print: a record without level.
    #[must_use]
    pub fn print(message: &'a str) -> Self {
        Record { message, ..Record::default() }
    }

    /// With this level, or with none, as a print: a level, or an `Option` of one.
    #[must_use]
    pub fn with_level(mut self, level: impl Into<Option<Level>>) -> Self {
        self.level = level.into();
        self
    }

    /// With the time when it happened. An empty text says that it is not known.
    #[must_use]
    pub fn with_timestamp(mut self, timestamp: &'a str) -> Self {
        self.timestamp = timestamp;
        self
    }

    shared_builders!();
}

/// A record of the host. It always has a level and never a timestamp.
///
/// ```
/// use pralakuon::{FormatterConfig, HostFormatter, HostRecord, Level};
///
/// let formatter = HostFormatter::new(FormatterConfig::custom("{t} {L} {c}: {s}"))?;
/// let record = HostRecord::new(Level::Debug, "sheet closed").with_module_path("tablet::app");
/// assert_eq!(formatter.format(&record)?, "<time> DEBUG tablet: sheet closed");
/// # Ok::<(), pralakuon::Refusal>(())
/// ```
#[derive(Clone, Copy, Debug, PartialEq, Eq, Hash)]
#[non_exhaustive]
pub struct HostRecord<'a> {
    /// How grave it is.
    pub level: Level,
    /// The path of the source file: `{F}`, and `{f}` for its last components.
    pub file: Option<&'a str>,
    /// The line in that file: `{l}`.
    pub line: Option<u32>,
    /// The module: `{m}`, and `{c}` for its crate.
    pub module_path: Option<&'a str>,
    /// What happened: `{s}`, which shows it as it is, whatever it says: without width, style or colour, and never laid
    /// out.
    pub message: &'a str,
    /// The serial of the head that it is about: `{d}`.
    pub head: Option<&'a str>,
}

impl<'a> HostRecord<'a> {
    /// A record of which only level and message are known.
    #[must_use]
    pub fn new(level: Level, message: &'a str) -> Self {
        HostRecord { level, file: None, line: None, module_path: None, message, head: None }
    }

    /// With this level in place of the one before.
    #[must_use]
    pub fn with_level(mut self, level: Level) -> Self {
        self.level = level;
        self
    }

    shared_builders!();
}
