//! What of a template is not used where it is read (document 02, E5), by the places of its bytes, from 0.

use std::ops::Range;

#[derive(Clone, Debug, Default, PartialEq)]
pub struct Unused {
    /// Stretches of bytes that are dropped.
    pub dropped: Vec<Range<usize>>,
    pub lost: Vec<Lost>,
}

/// A parameter that is read and then lost.
#[derive(Clone, Debug, PartialEq)]
pub struct Lost {
    /// Its word, or its sign and digits.
    pub word: Range<usize>,
    /// What splits it from its neighbour on the side of the group or segment that is taken instead.
    pub separator: usize,
}

impl Unused {
    /// "The place (from 0) of the first dropped byte or, if it comes earlier, of the lost parameter": of its word.
    pub fn place(&self) -> Option<usize> {
        let dropped = self.dropped.iter().map(|stretch| stretch.start);
        let lost = self.lost.iter().map(|lost| lost.word.start);
        dropped.chain(lost).min()
    }
}
