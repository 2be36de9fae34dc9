//! Every string of a few tokens, by itself and in places of a template.

/// How many there are of up to so many tokens.
pub fn count(tokens: &[&str], longest: u32) -> u64 {
    (0..=longest).map(|length| (tokens.len() as u64).pow(length)).sum()
}

/// The empty string, then those of one token, of two, and so on.
pub fn string(tokens: &[&str], mut nth: u64) -> String {
    let choices = tokens.len() as u64;
    let mut length = 0;
    while nth >= choices.pow(length) {
        nth -= choices.pow(length);
        length += 1;
    }
    (0..length).map(|place| tokens[(nth / choices.pow(place) % choices) as usize]).collect()
}

/// Every string of up to so many tokens in every place, before which and behind which something stands; and every example
/// with each of its characters changed.
pub struct Templates {
    pub tokens: &'static [&'static str],
    pub longest: u32,
    pub places: &'static [(&'static str, &'static str)],
    pub examples: fn() -> Vec<&'static str>,
}

impl Templates {
    /// How many there are.
    pub fn count(&self) -> u64 {
        self.strings() + self.edits() * self.characters().len() as u64
    }

    pub fn nth(&self, nth: u64) -> String {
        if nth < self.strings() {
            let places = self.places.len() as u64;
            let (before, after) = self.places[(nth % places) as usize];
            return [before, &string(self.tokens, nth / places), after].concat();
        }
        let nth = nth - self.strings();
        let (before, character, after) = self.characters()[(nth / self.edits()) as usize];
        let edit = nth % self.edits();
        match self.tokens.get(edit as usize / 2) {
            None => [before, after].concat(),
            Some(token) if edit % 2 == 0 => [before, token, after].concat(),
            Some(token) => [before, token, character, after].concat(),
        }
    }

    fn strings(&self) -> u64 {
        count(self.tokens, self.longest) * self.places.len() as u64
    }

    /// What can be done to a character of an example: each token before it or instead of it, or nothing instead of it.
    fn edits(&self) -> u64 {
        2 * self.tokens.len() as u64 + 1
    }

    /// The characters of the examples, each with what stands before it and behind it.
    fn characters(&self) -> Vec<(&'static str, &'static str, &'static str)> {
        let of = |template: &'static str| {
            template.char_indices().map(move |(at, character)| {
                let (before, from) = template.split_at(at);
                let (character, after) = from.split_at(character.len_utf8());
                (before, character, after)
            })
        };
        (self.examples)().into_iter().flat_map(of).collect()
    }
}
