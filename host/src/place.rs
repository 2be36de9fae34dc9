//! A place in a template, shown to a person.

/// The line of a template that holds a place, and in a second line a `^` under that place: for the one who has to find
/// the byte that [`Refusal::Dropped`](crate::Refusal::Dropped) tells.
///
/// ```
/// use pralakuon::{check, point_at, Refusal, Settings};
///
/// // The `%` was mistyped, and nobody would have seen that the time is missing.
/// let template = b"{s} %{t}";
/// let refusal = check(template, Settings::PLAIN.with_strict(true)).unwrap_err();
/// assert_eq!(refusal.to_string(), "refusal 17: the template drops bytes or loses a parameter, first at byte 4");
/// if let Refusal::Dropped { place } = refusal {
///     println!("{refusal}:\n{}", point_at(template, place));
/// }
/// assert_eq!(point_at(template, 4), "{s} %{t}\n    ^");
/// ```
///
/// Each character has one column, whatever a terminal makes of it. Control characters, which could disturb a terminal,
/// are shown as `?` (U+0080 to U+009F as `¿`), and so is a tab; what is not UTF-8 is shown as `U+FFFD`. A place behind
/// the end is the end.
#[must_use]
pub fn point_at(template: &[u8], place: usize) -> String {
    let (before, after) = template.split_at(place.min(template.len()));
    let is_newline = |byte: &u8| *byte == b'\n';
    let before = before.rsplit(is_newline).next().unwrap_or_default();
    let after = after.split(is_newline).next().unwrap_or_default();
    let harmless = |character: char| match character {
        // Two bytes for two, as the program shows them.
        '\u{80}'..='\u{9f}' => '¿',
        _ if character.is_control() => '?',
        _ => character,
    };
    let line: String = String::from_utf8_lossy(&[before, after].concat()).chars().map(harmless).collect();
    let columns = String::from_utf8_lossy(before).chars().count();
    // A width in the format would panic above 65,535.
    line + "\n" + &" ".repeat(columns) + "^"
}
