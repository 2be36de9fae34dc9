//! Memory that is lent to the port: painted, with a guard on either side, so that every byte it changes is seen.

const GUARD: usize = 48;

pub struct Lent {
    bytes: Vec<u8>,
}

fn paint(place: usize) -> u8 {
    (place as u8).wrapping_mul(167) ^ 0x5b
}

impl Lent {
    pub fn blank(room: usize) -> Lent {
        Lent { bytes: (0..room + 2 * GUARD).map(paint).collect() }
    }

    pub fn holding(content: &[u8]) -> Lent {
        let mut lent = Lent::blank(content.len());
        lent.part_mut().copy_from_slice(content);
        lent
    }

    pub fn part(&self) -> &[u8] {
        &self.bytes[GUARD..self.bytes.len() - GUARD]
    }

    pub fn part_mut(&mut self) -> &mut [u8] {
        let end = self.bytes.len() - GUARD;
        &mut self.bytes[GUARD..end]
    }

    /// Nothing differs from the paint but `front`, at the front of the lent part.
    pub fn holds(&self, front: &[u8]) -> bool {
        let (before, lent) = self.bytes.split_at(GUARD);
        let painted = |bytes: &[u8], from: usize| bytes.iter().zip(from..).all(|(byte, place)| *byte == paint(place));
        lent.starts_with(front) && painted(before, 0) && painted(&lent[front.len()..], GUARD + front.len())
    }
}
