//! The Kelvin sign in a colour word. The crate compares these words in Unicode's lower case, in which the sign is a `k`.
//! Here they are compared in ASCII's, and it is a letter that no word has. So the crate takes it for what it takes `K`
//! for, and here it is what the crate takes another letter for.

use crate::judge;

pub const SIGN: &str = "\u{212a}";

/// Not a small one: style words are compared as they stand, and one of them has a `k`.
#[cfg(feature = "port")]
pub const LARGE_K: &str = "K";

/// A letter of as many bytes, the angstrom sign; in lower case no word has it either.
pub const OTHER: &str = "\u{212b}";

/// The template with this letter in place of each sign.
pub fn with(letter: &str, template: &str) -> String {
    template.replace(SIGN, letter)
}

/// Whether the crate reads the template with this letter in place of each sign as `dump` says of the template itself.
pub fn is_read_as(dump: &str, letter: &str, template: &str) -> bool {
    dump.replace(&in_dump(SIGN), &in_dump(letter)) == judge::segments(with(letter, template).as_bytes())
}

/// Whether the crate would read the template otherwise if the sign were another letter.
pub fn decides(template: &str) -> bool {
    template.contains(SIGN) && !is_read_as(&judge::segments(template.as_bytes()), OTHER, template)
}

/// As the texts of a dump have it.
fn in_dump(text: &str) -> String {
    text.bytes().map(|byte| format!("{byte:02x}")).collect()
}
