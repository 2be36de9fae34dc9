//! What is visible of a text: all but its colour sequences.

use crate::answer::asked;
use crate::room::with_room;
use crate::{entries, Refusal};

/// What is visible of a text of any bytes: its colour sequences are taken out once, from left to right, and all other
/// bytes stay. A colour sequence is byte 27, `[`, any digits and `;`, and `m`.
///
/// ```
/// use pralakuon::visible;
///
/// assert_eq!(visible(b"\x1b[1;31mERROR\x1b[0m \xff")?, b"ERROR \xff");
/// // A broken sequence stays, and what comes together when one is taken out is not looked at again.
/// assert_eq!(visible(b"\x1b[1;3 and \x1b\x1b[0m[0m")?, b"\x1b[1;3 and \x1b[0m");
/// # Ok::<(), pralakuon::Refusal>(())
/// ```
///
/// # Errors
/// [`OtherVersion`](Refusal::OtherVersion) alone: an archive of this version refuses no text that a machine can hold.
pub fn visible(text: &[u8]) -> Result<Vec<u8>, Refusal> {
    with_room(text.len(), |out| visible_into(text, out))
}

/// What is visible of a text, as [`visible`] has it.
///
/// ```
/// assert_eq!(pralakuon::visible_str("\x1b[32mété\x1b[0m")?, "été");
/// # Ok::<(), pralakuon::Refusal>(())
/// ```
///
/// # Errors
/// As [`visible`].
pub fn visible_str(text: &str) -> Result<String, Refusal> {
    let seen = visible(text.as_bytes())?;
    Ok(String::from_utf8(seen).expect("sequences of ASCII taken out of UTF-8 leave UTF-8"))
}

/// Writes what is visible of a text to the front of `out` and gives its length. Nothing is allocated. As many bytes as
/// the text has are always enough.
///
/// ```
/// use pralakuon::{visible_into, Refusal};
///
/// let mut out = [0; 5];
/// assert_eq!(visible_into(b"\x1b[32mhello\x1b[0m", &mut out[..4]), Err(Refusal::LineTooLong { needed: 5 }));
/// assert_eq!(visible_into(b"\x1b[32mhello\x1b[0m", &mut out), Ok(5));
/// assert_eq!(&out, b"hello");
/// ```
///
/// # Errors
/// [`LineTooLong`](Refusal::LineTooLong) where `out` is too short. It is left as it was then.
pub fn visible_into(text: &[u8], out: &mut [u8]) -> Result<usize, Refusal> {
    asked(|| entries::visible(text, out))
}
