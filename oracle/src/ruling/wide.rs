//! Document 02's places (E14): "characters of East Asian Width W or F .. count two and all others one". The table is
//! wide-17.txt, read here once more, and every character of it is marked: nothing is searched for.

/// A line that says what it is, then the first and the last character of each range.
const TABLE: &str = include_str!("../../wide-17.txt");

const CHARACTERS: usize = 0x11_0000;

thread_local!(static MARKED: Vec<bool> = marked());

/// Both ends of each range belong to it.
pub fn ranges() -> impl Iterator<Item = (u32, u32)> {
    let number = |word: Option<&str>| word.and_then(|word| u32::from_str_radix(word, 16).ok()).expect("a number");
    TABLE.lines().skip(1).map(move |line| {
        let mut words = line.split_whitespace();
        (number(words.next()), number(words.next()))
    })
}

fn marked() -> Vec<bool> {
    let mut marked = vec![false; CHARACTERS];
    for (first, last) in ranges() {
        marked[first as usize..=last as usize].fill(true);
    }
    marked
}

pub fn is_wide(character: char) -> bool {
    MARKED.with(|marked| marked[character as usize])
}

pub fn has_wide(text: &str) -> bool {
    text.chars().any(is_wide)
}

pub fn places(text: &str) -> usize {
    text.chars().map(|character| if is_wide(character) { 2 } else { 1 }).sum()
}
