//! The reasons for which there is no line: fifteen with a number, and two that concern the archive itself.

use crate::Version;
use std::error::Error;
use std::{fmt, io};

/// Why there is no line. The numbers are those of the C header; docs/GUIDE.md says how to mend what each tells. Later
/// versions may have more reasons.
///
/// ```
/// use pralakuon::{check, Refusal, Settings};
///
/// let refusal = check(b"{s:513}", Settings::PLAIN).unwrap_err();
/// assert_eq!(refusal, Refusal::TooWide);
/// assert_eq!(refusal.number(), 7);
/// assert_eq!(refusal.to_string(), "refusal 7: the template asks for a width above 512");
/// ```
#[derive(Clone, Copy, Debug, PartialEq, Eq, Hash)]
#[non_exhaustive]
pub enum Refusal {
    /// 1: template over 1,024 bytes.
    TemplateTooLong,
    /// 2: template not UTF-8.
    TemplateNotUtf8,
    /// 3: the crate's parser fails outright on the template.
    Failure,
    /// 4: read, but no `{s}` at any depth.
    NoMessage,
    /// 5: a 65th segment is made.
    TooManySegments,
    /// 6: a closed brace is entered at depth 9.
    TooDeep,
    /// 7: a width above 512.
    TooWide,
    /// 8: a specifier name of more than 255 `f`.
    TooManyF,
    /// 9: a backslash as the last byte where a closing brace is searched for.
    HalfEscape,
    /// 11: a field over 4,096 bytes, or a head's serial over 32.
    FieldTooLong,
    /// 12: a field not UTF-8. Records of `&str` never meet it.
    FieldNotUtf8,
    /// 13: the line is longer than the lent buffer.
    LineTooLong {
        /// The bytes of the line; 0 where only the number is known, since no line of 0 bytes is too long.
        needed: usize,
    },
    /// 14: an unknown source, level or mask, a host's record without level, or an absent field that is there.
    NotARecord,
    /// 15: a sheet over 65,536 bytes, a sheet or a record that is not laid out as one, or an unknown settings bit.
    NotASheet,
    /// 17: bytes of the template would be dropped, or a parameter would be lost. Only [strict](crate::Settings::strict)
    /// settings meet it.
    Dropped {
        /// Where the first of them stands: the bytes before it. [`point_at`](crate::point_at) shows it. 0 where only the
        /// number is known, since nothing is read of a template that is dropped from its first byte on.
        place: usize,
    },
    /// The archive refuses by a number that this crate does not know.
    Unknown {
        /// That number.
        number: u8,
    },
    /// The linked archive is of another version than this crate, so nothing else was asked of it.
    OtherVersion {
        /// The version of the archive; that of this crate is [`Version::HOST`].
        archive: Version,
    },
}

/// The refusals with a number, in the order of their numbers.
const NUMBERED: [Refusal; 15] = [
    Refusal::TemplateTooLong,
    Refusal::TemplateNotUtf8,
    Refusal::Failure,
    Refusal::NoMessage,
    Refusal::TooManySegments,
    Refusal::TooDeep,
    Refusal::TooWide,
    Refusal::TooManyF,
    Refusal::HalfEscape,
    Refusal::FieldTooLong,
    Refusal::FieldNotUtf8,
    Refusal::LineTooLong { needed: 0 },
    Refusal::NotARecord,
    Refusal::NotASheet,
    Refusal::Dropped { place: 0 },
];

impl Refusal {
    /// Its number: 1 to 9, 11 to 15 or 17, the archive's own where it is [`Unknown`](Refusal::Unknown), and 0 for
    /// [`OtherVersion`](Refusal::OtherVersion), which no archive answers.
    #[must_use]
    pub fn number(self) -> u8 {
        self.told().0
    }

    /// The refusal of a number; none but 1 to 9, 11 to 15 and 17 has one. A bare 13 says nothing of the length needed and
    /// a bare 17 nothing of the place: they are 0 then. 10 is no longer given, and no other refusal takes its number.
    ///
    /// ```
    /// use pralakuon::Refusal;
    ///
    /// assert_eq!(Refusal::from_number(3), Some(Refusal::Failure));
    /// assert_eq!(Refusal::from_number(10), None);
    /// assert_eq!(Refusal::from_number(16), None);
    /// ```
    #[must_use]
    pub fn from_number(number: u8) -> Option<Refusal> {
        NUMBERED.into_iter().find(|refusal| refusal.number() == number)
    }

    /// Its number, and what is said of it.
    fn told(self) -> (u8, &'static str) {
        match self {
            Refusal::TemplateTooLong => (1, "the template is over 1,024 bytes"),
            Refusal::TemplateNotUtf8 => (2, "the template is not UTF-8"),
            Refusal::Failure => (3, "the template cannot be read"),
            Refusal::NoMessage => (4, "the template nowhere names the message, {s}"),
            Refusal::TooManySegments => (5, "the template has more than 64 segments"),
            Refusal::TooDeep => (6, "the template has braces more than 8 deep"),
            Refusal::TooWide => (7, "the template asks for a width above 512"),
            Refusal::TooManyF => (8, "the template has a name of more than 255 f"),
            Refusal::HalfEscape => (9, "the template ends in a backslash where a closing brace is searched for"),
            Refusal::FieldTooLong => (11, "a text of the record is over 4,096 bytes, or its head over 32"),
            Refusal::FieldNotUtf8 => (12, "a text of the record is not UTF-8"),
            Refusal::LineTooLong { .. } => (13, "the line is longer than the buffer"),
            Refusal::NotARecord => (14, "the record has an unknown number or contradicts itself"),
            Refusal::NotASheet => (15, "a settings bit is unknown, or a record or sheet is not laid out as one"),
            Refusal::Dropped { .. } => (17, "the template drops bytes or loses a parameter"),
            Refusal::Unknown { number } => (number, "the archive has a reason that this crate does not know"),
            Refusal::OtherVersion { .. } => (0, "the archive is of another version"),
        }
    }
}

impl fmt::Display for Refusal {
    fn fmt(&self, out: &mut fmt::Formatter<'_>) -> fmt::Result {
        let (number, reason) = self.told();
        match self {
            Refusal::OtherVersion { archive } => {
                write!(out, "{reason}: {archive}, and this crate is {}", Version::HOST)
            }
            Refusal::LineTooLong { needed } if *needed > 0 => {
                write!(out, "refusal {number}: {reason}, {needed} bytes are needed")
            }
            Refusal::Dropped { place } if *place > 0 => {
                write!(out, "refusal {number}: {reason}, first at byte {place}")
            }
            _ => write!(out, "refusal {number}: {reason}"),
        }
    }
}

impl Error for Refusal {}

impl From<Refusal> for io::Error {
    /// An error of the kind [`InvalidData`](io::ErrorKind::InvalidData) with the refusal inside.
    fn from(refusal: Refusal) -> io::Error {
        io::Error::new(io::ErrorKind::InvalidData, refusal)
    }
}
