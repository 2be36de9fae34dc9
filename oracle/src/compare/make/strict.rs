//! Templates that are read and leave something unused, or nearly do: of chance, and systematically.

use super::crossed::{put_before, put_behind};
use super::tokens::Templates;
use crate::examples::STRICT;
use crate::sample::random::Rng;

/// Before a closing brace.
const DROPPED: &[&str] =
    &[" junk", " ", "07", "%bold", ":", ":x", ":bold:bold", "%", "%x", "\\{", "\\{b%red", "\\}", " {L}", "é", "\\\\"];

/// Behind an opening brace.
const LOST: &[&str] = &["bold:", "<5:", "red%", "5%", "severity:", "07:red:", "bold%<9%", "L%", "bold", "5"];

/// Behind everything.
const TAILS: &[&str] = &["%", "%x", "{", "{t", "%{s}", "{\\}", "%bold", "{{t}", "\\{", "}%", "é%é"];

/// Before a brace: a place is counted in bytes.
const TEXTS: &[&str] = &["é", "測", "}", "\\", "x "];

pub fn template(rng: &mut Rng) -> Vec<u8> {
    let depth = 1 + rng.below(5);
    let mut template = match rng.below(4) {
        0 => STRICT[rng.below(STRICT.len())].0.to_string(),
        1 => rng.tower(depth),
        _ => rng.template(depth),
    };
    for _ in 0..rng.below(4) {
        template = match rng.below(8) {
            0..=2 => {
                let text = rng.pick(DROPPED);
                put_before(rng, template, '}', text)
            }
            3 | 4 => {
                let text = rng.pick(LOST);
                put_behind(rng, template, &['{'], text)
            }
            5 => template + rng.pick(TAILS),
            6 => {
                let text = rng.pick(TEXTS);
                put_before(rng, template, '{', text)
            }
            _ => rng.damaged(&template),
        };
    }
    template.into_bytes()
}

/// Braces and separators, names, parameters, whole braces, and bytes that are none of it. Alone and behind a message; the content
/// of a brace at odd and at even depth, from its beginning, behind a name and behind a parameter's separator; the tail of a group.
pub const TEMPLATES: Templates = Templates {
    tokens: &[
        "{", "}", ":", "%", "\\", "{s}", "{L}", "s", "L", "bold", "red", "7", "<5", "x", " ", "é", "{x", "{bold:",
        "%bold", "[",
    ],
    longest: 4,
    places: &[
        ("", ""),
        ("{s}", ""),
        ("{", "}{s}"),
        ("{s", "}"),
        ("{bold:", "}{s}"),
        ("{x{", "}}{s}"),
        ("{x{L", "}}{s}"),
        ("{x{L%", "}}{s}"),
        ("{[{s}]", "}"),
    ],
    examples: || STRICT.iter().map(|example| example.0).collect(),
};
