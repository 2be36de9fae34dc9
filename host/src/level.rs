//! How grave a record is.

use std::error::Error;
use std::fmt;
use std::str::FromStr;

/// How grave a record is, the gravest first.
///
/// ```
/// use pralakuon::Level;
///
/// assert_eq!(Level::Info.number(), 3);
/// assert_eq!(Level::from_number(3), Some(Level::Info));
/// assert_eq!(Level::from_number(0), None);
/// assert!(Level::Error < Level::Trace);
/// assert_eq!(Level::Warn.to_string(), "WARN");
/// assert_eq!("warn".parse(), Ok(Level::Warn));
/// assert_eq!(Level::try_from(2), Ok(Level::Warn));
/// assert!(Level::try_from(6).is_err());
/// ```
#[derive(Clone, Copy, Debug, PartialEq, Eq, PartialOrd, Ord, Hash)]
#[repr(u8)]
pub enum Level {
    /// 1
    Error = 1,
    /// 2
    Warn = 2,
    /// 3
    Info = 3,
    /// 4
    Debug = 4,
    /// 5
    Trace = 5,
}

impl Level {
    /// All five, by number.
    pub const ALL: [Level; 5] = [Level::Error, Level::Warn, Level::Info, Level::Debug, Level::Trace];

    /// Its number in a record's layout, 1 to 5.
    #[must_use]
    pub fn number(self) -> u8 {
        self as u8
    }

    /// The level of a number; none but 1 to 5 has one.
    #[must_use]
    pub fn from_number(number: u8) -> Option<Level> {
        Level::ALL.into_iter().find(|level| level.number() == number)
    }

    /// Its name, as `{L}` shows it.
    #[must_use]
    pub fn name(self) -> &'static str {
        match self {
            Level::Error => "ERROR",
            Level::Warn => "WARN",
            Level::Info => "INFO",
            Level::Debug => "DEBUG",
            Level::Trace => "TRACE",
        }
    }
}

impl fmt::Display for Level {
    fn fmt(&self, out: &mut fmt::Formatter<'_>) -> fmt::Result {
        out.pad(self.name())
    }
}

/// There is no such level.
#[derive(Clone, Copy, Debug, PartialEq, Eq, Hash)]
#[non_exhaustive]
pub struct UnknownLevel;

impl fmt::Display for UnknownLevel {
    fn fmt(&self, out: &mut fmt::Formatter<'_>) -> fmt::Result {
        out.write_str("a level is ERROR, WARN, INFO, DEBUG or TRACE, or its number, 1 to 5")
    }
}

impl Error for UnknownLevel {}

impl FromStr for Level {
    type Err = UnknownLevel;

    /// A level by its name, in capital or small letters.
    fn from_str(name: &str) -> Result<Level, UnknownLevel> {
        Level::ALL.into_iter().find(|level| level.name().eq_ignore_ascii_case(name)).ok_or(UnknownLevel)
    }
}

impl TryFrom<u8> for Level {
    type Error = UnknownLevel;

    /// A level by its number.
    fn try_from(number: u8) -> Result<Level, UnknownLevel> {
        Level::from_number(number).ok_or(UnknownLevel)
    }
}
