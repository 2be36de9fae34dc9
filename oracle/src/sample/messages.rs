//! Comparison reports of chance (document 02, E10), and messages that are nearly one.

use super::random::Rng;

/// Near misses, and lines that are only an opening mark.
const EXAMPLES: &[&str] = &[
    "wall\n left: `12`\nright: `13`",
    "a\nb\r\n left: `é\x1b[0m`\r\nright: ``\n",
    "wall\n left: `\nright: `",
    "wall\n left: `\nright: `2`",
    "wall\n left: `1`\nright: `\n",
    " left: `1`\nright: `2`",
    "\n left: ``\nright: ``",
    "wall\n left: `1`\nright: `2`\n.",
    "wall\n left: `1` \nright: `2`",
    "wall\n left: `1`\n\nright: `2`",
    "wall\nright: `1`\n left: `2`",
    "wall\n left: `1`\nright: `2`\n left: `3`\nright: `4`",
    "wall\r left: `1`\rright: `2`",
    "\r\n left: `a\r`\r\nright: `a\rb`\r\n",
];

/// What the lines before the values are made of.
const HEADS: &[&str] = &[
    "assert",
    "a",
    " ",
    "é",
    "温",
    "\r",
    "`",
    "\x1b[0m",
    "\x1b[1m",
    "\x1b[31m",
    "\x1b[",
    "\x1b",
    "0m",
    " left: `1`",
    "right: `2`",
    "diff",
];

/// What values are made of, so that they share beginnings and ends, and bytes where no character is shared: the last one of `é`
/// is that of `ĩ` and of `温`.
const ALPHABETS: &[&[&str]] = &[
    &["a", "b"],
    &["a", "b", "c", "1", " "],
    &["a", "`"],
    &["é", "è", "a", "ĩ"],
    &["温", "渦", "é", "a"],
    &["温", "壁", "b", "ｶ"],
    &["a", "b", "é", "è", "温", "渦", "\x1b[0m", "`"],
    &["\x1b[0m", "\x1b[1m", "\x1b[31m", "a"],
    &["\x1b", "[", "0", "m", "\x1b[", "\x1b[0m", "a"],
    &["right: `", " left: `", "`", "a", "\r"],
    &["é", "渦", "😀", "\u{301}"],
];

/// Of each value, where nothing but ASCII may be shared.
const APART: &[[&[&str]; 2]] = &[[&["é", "a", "b"], &["ж", "a", "b"]], [&["温", "a"], &["ñ", "b", "a"]]];
const ASCII: &[&str] = &["a", "b"];

/// Between lines: these, or what is no end of a line, or of more than one.
const ENDS_OF_LINES: &[&str] = &["\n", "\n", "\n", "\r\n"];
const ODD_ENDS_OF_LINES: &[&str] = &["\r\r\n", "\n\n", "\r", "\n\r", ""];
const BROKEN_LEFT: &[&str] = &["left: `", "  left: `", " left: ", " Left: `", " left:`", "right: `", "\t left: `", ""];
const BROKEN_RIGHT: &[&str] = &["right: ", " right: `", "Right: `", "right:`", " left: `", "right: '", ""];
const BROKEN_ENDS: &[&str] = &["", "` ", "'", "`\r", "`\u{301}", "`\x1b[0m"];

/// Behind the last line.
const LAST: &[&str] = &["", "", "", "", "\n", "\n", "\r\n"];
const ODD_LAST: &[&str] = &["\r", "\n\n", "\r\r\n", "\n\r", "\n.", "\n\r\n", " ", "`"];

/// The most bytes of a field.
const MOST: usize = 4096;

impl Rng {
    /// Two of three are laid out.
    pub fn report(&mut self) -> Vec<u8> {
        if self.one_in(12) {
            return self.pick(EXAMPLES).into();
        }
        let long = self.one_in(60);
        let [left, right] = self.values(if long { 150 } else { 4 });
        let left = self.marked(" left: `", BROKEN_LEFT, &left);
        let right = self.marked("right: `", BROKEN_RIGHT, &right);
        let head = self.head_lines();
        let last = self.one_of(LAST, ODD_LAST, 10);
        let message = [&*head, &left, self.end_of_line(), &right, last].concat();
        if long {
            return self.filled(message);
        }
        message.into_bytes()
    }

    /// None of 24, and mostly one of up to five.
    fn head_lines(&mut self) -> String {
        let lines = match self.below(24) {
            0 => 0,
            1..=5 => 2 + self.below(4),
            _ => 1,
        };
        (0..lines).map(|_| self.head_line()).collect()
    }

    fn head_line(&mut self) -> String {
        let pieces: String = (0..self.below(4)).map(|_| self.pick(HEADS)).collect();
        pieces + self.end_of_line()
    }

    fn end_of_line(&mut self) -> &'static str {
        self.one_of(ENDS_OF_LINES, ODD_ENDS_OF_LINES, 25)
    }

    /// One of the second list in so many, else of the first.
    fn one_of<'a>(&mut self, first: &[&'a str], second: &[&'a str], in_so_many: usize) -> &'a str {
        let list = if self.one_in(in_so_many) { second } else { first };
        self.pick(list)
    }

    /// A value between its marks, of which now and then one is broken or the closing one is not there at all.
    fn marked(&mut self, mark: &str, broken: &[&str], value: &str) -> String {
        match self.below(40) {
            0 => [self.pick(broken), value, "`"].concat(),
            1 => [mark, value, self.pick(BROKEN_ENDS)].concat(),
            2 => mark.to_string(),
            _ => [mark, value, "`"].concat(),
        }
    }

    /// Both of up to so many pieces at their beginning and at their end, and of some of their own.
    fn values(&mut self, most: usize) -> [String; 2] {
        let one = ALPHABETS[self.below(ALPHABETS.len())];
        let apart = APART[self.below(APART.len())];
        let (one, alphabets) = if self.one_in(6) { (ASCII, apart) } else { (one, [one, one]) };
        match self.below(4) {
            0 => alphabets.map(|alphabet| self.word(alphabet, most + 5)),
            1 => {
                let again = self.word(one, 3);
                [(); 2].map(|()| again.repeat(self.below(most)) + &self.word(one, 2))
            }
            _ => {
                let [beginning, end] = [(); 2].map(|()| self.word(one, most));
                alphabets.map(|alphabet| [&*beginning, &self.word(alphabet, 4), &end].concat())
            }
        }
    }

    fn word(&mut self, alphabet: &[&str], most: usize) -> String {
        (0..self.below(most)).map(|_| self.pick(alphabet)).collect()
    }

    /// With so much before it that it is as long as a message may be, or a byte shorter or longer.
    fn filled(&mut self, message: String) -> Vec<u8> {
        let size = MOST - 1 + self.below(3);
        let fill = if self.one_in(2) { size.saturating_sub(message.len()) } else { 0 };
        ("x".repeat(fill) + &message).into_bytes()
    }
}
