//! Numbers below 1,024, of which the lowest or the highest is wanted next.

#[derive(Default)]
pub struct Bits {
    words: [u64; 16],
    /// Which words have a bit.
    some: u16,
}

impl Bits {
    pub fn insert(&mut self, number: usize) {
        self.words[number / 64] |= 1 << (number % 64);
        self.some |= 1 << (number / 64);
    }

    pub fn take_lowest(&mut self) -> Option<usize> {
        let place = self.some.trailing_zeros() as usize;
        let bit = self.words.get(place)?.trailing_zeros() as usize;
        Some(self.take(place, bit))
    }

    pub fn take_highest(&mut self) -> Option<usize> {
        let place = self.some.checked_ilog2()? as usize;
        let bit = self.words[place].ilog2() as usize;
        Some(self.take(place, bit))
    }

    fn take(&mut self, place: usize, bit: usize) -> usize {
        self.words[place] ^= 1 << bit;
        if self.words[place] == 0 {
            self.some ^= 1 << place;
        }
        64 * place + bit
    }
}
