//! Log records turned into lines that can be trusted to the byte.
//!
//! A template says how lines look, a record says what happened. The line is made by the archive `libpralakuon_c.a`, in
//! which every function is proved to meet its contract; this crate hands it records and templates and hands its answers
//! back. It decides nothing about a line itself.
//!
//! # From a record to a line
//!
//! ```
//! use pralakuon::{Formatter, FormatterConfig, Level, Record};
//!
//! let formatter = Formatter::new(FormatterConfig::custom("{t} [{L}] {s}"))?;
//! let record = Record::new(Level::Info, "wall B3 crack 0.412 mm").with_timestamp("0.002500");
//! assert_eq!(formatter.format(&record)?, "0.002500 [INFO ] wall B3 crack 0.412 mm");
//! # Ok::<(), pralakuon::Refusal>(())
//! ```
//!
//! The template is checked once, by [`Formatter::new`]. Where there is no line there is a [`Refusal`], which says why.
//! [`Formatter::append`] puts lines into a text that is used again, [`Formatter::write_line`] into a file or the like,
//! and [`Formatter::format_into`] into a lent buffer. The host's own records have a type of their own, [`HostRecord`],
//! and a [`HostFormatter`].
//!
//! # Straight columns
//!
//! The crate defmt-decoder, whose templates these are, takes what it writes for colour off the padding of a group. A
//! padded bold group came out shorter in colour than plain, and the columns after it slid. Straight mode doesn't count
//! colour, so that a coloured line without its colour is the plain line.
//!
//! ```
//! use pralakuon::{visible_str, Formatter, FormatterConfig, Level, Record, Refusal, Settings};
//!
//! // What is seen of the line: all but its colour sequences.
//! fn shown(settings: Settings) -> Result<String, Refusal> {
//!     let config = FormatterConfig::custom("{[{L}]%bold%<9}|{s}").with_settings(settings);
//!     let line = Formatter::new(config)?.format(&Record::new(Level::Error, "hello"))?;
//!     visible_str(&line)
//! }
//!
//! assert_eq!(shown(Settings::PLAIN)?, "[ERROR]  |hello");
//! assert_eq!(shown(Settings::CRATE_COLOUR)?, "[ERROR]|hello");
//! assert_eq!(shown(Settings::STRAIGHT_COLOUR)?, "[ERROR]  |hello");
//! # Ok::<(), Refusal>(())
//! ```
//!
//! # Strict templates
//!
//! Templates are read as the crate reads them: what it cannot read, it drops without a word, and behind a mistyped `%`
//! that may be the time. Strict settings refuse such a template and say where, and change nothing else.
//!
//! ```
//! use pralakuon::{point_at, Formatter, FormatterConfig, Refusal};
//!
//! let template = "{s} %{t}";
//! let refused = Formatter::new(FormatterConfig::custom(template).with_strict());
//! assert_eq!(refused, Err(Refusal::Dropped { place: 4 }));
//! assert_eq!(point_at(template.as_bytes(), 4), "{s} %{t}\n    ^");
//! ```
//!
//! # Wide characters
//!
//! A screen gives two places to a character such as `壁`, and the crate counts one, so that a column behind a Japanese name
//! slides. With the places rule widths count two for each wide character.
//!
//! ```
//! use pralakuon::{Formatter, FormatterConfig, Level, Record};
//!
//! let record = Record::new(Level::Info, "0.412 mm").with_module_path("北壁::B3");
//! let crates = Formatter::new(FormatterConfig::custom("{c:8}|{s}"))?;
//! assert_eq!(crates.format(&record)?, "北壁      |0.412 mm"); // ten places before the `|`
//! let places = Formatter::new(FormatterConfig::custom("{c:8}|{s}").with_places())?;
//! assert_eq!(places.format(&record)?, "北壁    |0.412 mm"); // eight
//! # Ok::<(), pralakuon::Refusal>(())
//! ```
//!
//! # Heads
//!
//! Where several heads work one wall, a record can say which of them measured it: `{d}` shows the head's serial.
//!
//! ```
//! use pralakuon::{Formatter, FormatterConfig, Level, Record};
//!
//! let formatter = Formatter::new(FormatterConfig::custom("{d:>6} [{L}] {s}"))?;
//! let record = Record::new(Level::Info, "wall B3 crack 0.412 mm");
//! assert_eq!(formatter.format(&record.with_head("H-07"))?, "  H-07 [INFO ] wall B3 crack 0.412 mm");
//! assert_eq!(formatter.format(&record)?, "<head> [INFO ] wall B3 crack 0.412 mm");
//! # Ok::<(), pralakuon::Refusal>(())
//! ```
//!
//! # Comparison reports
//!
//! When a self-test on the head fails, its firmware sends a message of more than two lines, of which the last two hold
//! two values. Such a message of a device's record, or of a print, is laid out. In colour the left value is red and the
//! right one green, and what they don't share is bold. A width, style or colour of `{s}` doesn't apply to it; those of a
//! group around it do. Without its colour a line in straight colour is the plain line then, too. That a specifier fills its
//! width is not promised of a `{s}` that is laid out.
//!
//! ```
//! use pralakuon::{Formatter, FormatterConfig, Level, Record};
//!
//! let formatter = Formatter::new(FormatterConfig::custom("[{L}] {s}"))?;
//! let record = Record::new(Level::Error, "self-test failed\n left: `1.25 mm`\nright: `1.5 mm`");
//! assert_eq!(formatter.format(&record)?, "[ERROR] self-test failed\ndiff < left / right >\n<1.25 mm\n>1.5 mm");
//! # Ok::<(), pralakuon::Refusal>(())
//! ```
//!
//! So a line may hold newlines. The host's own messages are never laid out.
//!
//! # Session sheets
//!
//! A sheet holds a template and records, so that the same lines can be made of them years later. [`SheetWriter`] writes
//! one, [`Sheet`] reads one and gives its lines one by one, and [`session()`] gives all of them at once.
//!
//! ```
//! use pralakuon::{session, Formatter, FormatterConfig, HostRecord, Level, Record, SheetWriter};
//!
//! let formatter = Formatter::new(FormatterConfig::custom("[{L}] {s}"))?;
//! let mut sheet = SheetWriter::new(formatter.settings(), formatter.template().as_bytes())?;
//! sheet.push(&Record::new(Level::Warn, "wheel slipped"))?;
//! sheet.push(&HostRecord::new(Level::Debug, "sheet closed"))?;
//! assert_eq!(session(&sheet.finish())?, b"[WARN ] wheel slipped\n[DEBUG] sheet closed\n");
//! # Ok::<(), Box<dyn std::error::Error>>(())
//! ```
//!
//! # Versions
//!
//! Before each call the [version](archive_version) of the linked archive is compared with that of this crate: major
//! and minor number must be the same. Every function that would call another archive answers
//! [`Refusal::OtherVersion`] instead.
//!
//! Types that may grow are `#[non_exhaustive]`: records and settings are made by `new` and the `with_` methods, and a
//! `match` on a [`Refusal`] needs an arm for others.

#![deny(missing_docs)]
#![deny(unsafe_code)]
#![deny(unsafe_op_in_unsafe_fn)]
#![warn(clippy::missing_errors_doc, clippy::must_use_candidate, clippy::return_self_not_must_use)]
#![warn(clippy::undocumented_unsafe_blocks)]

mod answer;
mod bytes;
mod config;
// The one place where the archive is called.
#[allow(unsafe_code)]
pub mod entries;
mod form;
mod formatter;
mod level;
mod line;
mod place;
mod raw;
mod record;
mod refusal;
mod room;
mod scratch;
mod session;
mod settings;
mod sheet;
mod template;
mod version;
mod visible;

pub use config::{FormatterConfig, FormatterFormat};
pub use formatter::{Formatter, HostFormatter};
pub use level::{Level, UnknownLevel};
pub use line::line;
pub use place::point_at;
pub use raw::RawRecord;
pub use record::{HostRecord, Record};
pub use refusal::Refusal;
pub use session::{session, session_into};
pub use settings::Settings;
pub use sheet::{Sheet, SheetFull, SheetLines, SheetWriter};
pub use template::{check, names_timestamp};
pub use version::{archive_version, Version};
pub use visible::{visible, visible_into, visible_str};

// So that the README's example is run too.
#[cfg(doctest)]
#[doc = include_str!("../README.md")]
struct Readme;
