//! What can be told of a template alone, and the built-in ones.

use crate::answer::asked;
use crate::room::with_room;
use crate::{entries, Refusal, Settings};

/// Whether a template is read by these settings; if not, why. Of the settings only [`strict`](Settings::strict) counts.
///
/// ```
/// use pralakuon::{check, Refusal, Settings};
///
/// assert_eq!(check(b"[{L}] {s}", Settings::PLAIN), Ok(()));
/// assert_eq!(check(b"{s:bold:bold}", Settings::PLAIN), Err(Refusal::Failure));
/// assert_eq!(check(b"{s}\xff", Settings::PLAIN), Err(Refusal::TemplateNotUtf8));
///
/// // What is dropped without a word, and what is not.
/// let strict = Settings::PLAIN.with_strict(true);
/// assert_eq!(check(b"{s junk}", Settings::PLAIN), Ok(()));
/// assert_eq!(check(b"{s junk}", strict), Err(Refusal::Dropped { place: 2 }));
/// ```
///
/// # Errors
/// Refusals 1 to 9, and 17 where the settings are strict.
pub fn check(template: &[u8], settings: Settings) -> Result<(), Refusal> {
    asked(|| entries::check(template, settings.byte())).map(|_| ())
}

/// Whether a template names the time, `{t}`, at any depth.
///
/// ```
/// use pralakuon::{names_timestamp, Refusal, Settings};
///
/// assert_eq!(names_timestamp(b"{t} {s}", Settings::PLAIN), Ok(true));
/// assert_eq!(names_timestamp(b"t {s}", Settings::PLAIN), Ok(false));
/// assert_eq!(names_timestamp(b"{t}", Settings::PLAIN), Err(Refusal::NoMessage));
/// ```
///
/// # Errors
/// Refusals 1 to 9, and 17 where the settings are strict, as [`check`].
pub fn names_timestamp(template: &[u8], settings: Settings) -> Result<bool, Refusal> {
    asked(|| entries::timestamp(template, settings.byte())).map(|length| length != 0)
}

/// The two families of built-in templates, by the numbers of the entry.
#[derive(Clone, Copy)]
pub(crate) enum Style {
    Default = 0,
    OneLine = 1,
}

/// A built-in template.
pub(crate) fn builtin(style: Style, location: bool, timestamp: bool, host: bool) -> Result<String, Refusal> {
    let [location, timestamp, host] = [location, timestamp, host].map(u8::from);
    let template = with_room(0, |out| asked(|| entries::builtin(style as u8, location, timestamp, host, out)))?;
    Ok(String::from_utf8(template).expect("a built-in template is UTF-8"))
}
