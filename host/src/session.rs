//! All lines of a session sheet at once.

use crate::answer::asked;
use crate::room::with_room;
use crate::{entries, Refusal};

/// Room for the lines of most sheets.
const ROOM_FOR_ALL: usize = 65_536;

/// The lines of a sheet: for each record its line or `! N`, N being a refusal's number, and a newline.
/// [`Sheet::lines`](crate::Sheet::lines) gives them one by one.
///
/// ```
/// use pralakuon::{session, Level, Record, Refusal, Settings, SheetWriter};
///
/// let mut sheet = SheetWriter::new(Settings::PLAIN, b"[{L}] {s}")?;
/// sheet.push(&Record::new(Level::Error, "hello"))?;
/// sheet.push(&Record::print("boot"))?;
/// assert_eq!(session(&sheet.finish())?, b"[ERROR] hello\nboot\n");
/// assert_eq!(session(b"not a sheet"), Err(Refusal::NotASheet));
/// # Ok::<(), Box<dyn std::error::Error>>(())
/// ```
///
/// # Errors
/// [`NotASheet`](Refusal::NotASheet), or refusals 1 to 9 or 17 where the template is refused: then there are no lines.
pub fn session(sheet: &[u8]) -> Result<Vec<u8>, Refusal> {
    with_room(ROOM_FOR_ALL, |out| session_into(sheet, out))
}

/// Writes the lines of a sheet to the front of `out` and gives their length.
///
/// ```
/// use pralakuon::{session_into, Record, Refusal, Settings, SheetWriter};
///
/// let mut sheet = SheetWriter::new(Settings::PLAIN, b"{s}")?;
/// sheet.push(&Record::print("boot"))?;
/// let sheet = sheet.finish();
/// let mut out = [0; 5];
/// assert_eq!(session_into(&sheet, &mut out[..4]), Err(Refusal::LineTooLong { needed: 5 }));
/// assert_eq!(session_into(b"not a sheet", &mut out[..4]), Err(Refusal::NotASheet));
/// assert_eq!(out, [0; 5]);
/// assert_eq!(session_into(&sheet, &mut out), Ok(5));
/// assert_eq!(&out, b"boot\n");
/// # Ok::<(), Box<dyn std::error::Error>>(())
/// ```
///
/// # Errors
/// As [`session`], and [`LineTooLong`](Refusal::LineTooLong) where the lines of an accepted sheet need more room. A
/// refusal leaves `out` as it was.
pub fn session_into(sheet: &[u8], out: &mut [u8]) -> Result<usize, Refusal> {
    asked(|| entries::session(sheet, out))
}
