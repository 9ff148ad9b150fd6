//! A text from a place on, from which a reader takes byte by byte.

/// A bit of each byte.
pub const ONES: u64 = 0x0101_0101_0101_0101;

#[derive(Clone, Copy)]
pub struct Cursor<'a> {
    text: &'a [u8],
    rest: &'a [u8],
}

/// What names are made of, of which none is the byte 0.
pub struct Letters {
    legal: [bool; 256],
    /// Each byte below it ends a name.
    least: u8,
    longest: usize,
    /// Whether a digit may be the first.
    digit_first: bool,
}

impl Letters {
    /// The bytes of these ranges, in ascending order; 255 stands in no text.
    pub const fn of(ranges: &[(u8, u8)]) -> Letters {
        let mut legal = [false; 256];
        let mut range = 0;
        while range < ranges.len() {
            let (mut byte, last) = ranges[range];
            while byte <= last {
                legal[byte as usize] = true;
                byte += 1;
            }
            range += 1;
        }
        Letters {
            legal,
            least: ranges[0].0,
            longest: usize::MAX,
            digit_first: true,
        }
    }

    /// The same, but for names with a digit first and those that are longer.
    pub const fn named(self, longest: usize) -> Letters {
        Letters {
            longest,
            digit_first: false,
            ..self
        }
    }

    pub fn has(&self, byte: u8) -> bool {
        self.legal[usize::from(byte)]
    }

    /// Whether the bytes of a short key are letters, and may be a name.
    #[inline(always)]
    pub fn are_all(&self, key: u64, length: usize) -> bool {
        let mut left = key;
        while self.has(left as u8) {
            left >>= 8;
        }
        let first = self.digit_first || !(key as u8).is_ascii_digit();
        left == 0 && first && (1..=self.longest).contains(&length)
    }

    /// Whether a name may be of these letters.
    pub fn may_be(&self, name: &[u8]) -> bool {
        let first = name.first().copied();
        name.len() <= self.longest
            && first.is_some_and(|first| self.digit_first || !first.is_ascii_digit())
    }
}

/// The bytes of a short name as one number, the first the lowest; none is 0, so that no two names have the same.
pub const fn key_of(name: &[u8]) -> u64 {
    let (mut key, mut place) = (0, name.len());
    while place > 0 {
        place -= 1;
        key = key << 8 | name[place] as u64;
    }
    key
}

impl<'a> Cursor<'a> {
    /// At the beginning of a text.
    pub fn of(text: &'a [u8]) -> Cursor<'a> {
        Cursor { text, rest: text }
    }

    pub fn text(&self) -> &'a [u8] {
        self.text
    }

    pub fn next(&self) -> Option<u8> {
        self.rest.first().copied()
    }

    pub fn is_at_end(&self) -> bool {
        self.rest.is_empty()
    }

    pub fn place(&self) -> usize {
        self.text.len() - self.rest.len()
    }

    /// The line of a place, from 1.
    pub fn line_of(&self, place: usize) -> usize {
        let before = self.text[..place].iter();
        1 + before.filter(|&&byte| byte == b'\n').count()
    }

    /// The next eight bytes as a number, the first the lowest; 0 behind the end.
    #[inline(always)]
    pub fn eight(&self) -> u64 {
        match self.rest.first_chunk() {
            Some(eight) => u64::from_le_bytes(*eight),
            None => key_of(self.rest),
        }
    }

    /// Goes past so many bytes.
    #[inline(always)]
    pub fn pass(&mut self, count: usize) {
        self.rest = &self.rest[count..];
    }

    /// Goes past these bytes, if they stand here.
    #[inline(always)]
    pub fn takes<const N: usize>(&mut self, bytes: &[u8; N]) -> bool {
        match self.rest.split_first_chunk() {
            Some((first, rest)) if first == bytes => {
                self.rest = rest;
                true
            }
            _ => false,
        }
    }

    #[inline(always)]
    pub fn must<const N: usize>(&mut self, bytes: &[u8; N]) -> Option<()> {
        self.takes(bytes).then_some(())
    }

    /// The key of what stands here up to a byte below all letters, and its length, where that is among the next eight: of a name, or of no
    /// name at all. None where fewer than eight bytes are left.
    #[inline(always)]
    pub fn key(&self, letters: &Letters) -> Option<(u64, usize)> {
        let eight = u64::from_le_bytes(*self.rest.first_chunk()?);
        // A byte's highest bit is set by the subtraction where it is less, and by a borrow only behind such a byte.
        let less = eight.wrapping_sub(ONES * letters.least as u64) & !eight & (ONES << 7);
        let length = less.trailing_zeros() as usize / 8;
        // All bits up to the highest of the first such byte, and of these all but that byte's.
        (less != 0).then(|| (eight & (less ^ (less - 1)) >> 8, length))
    }

    /// The name that stands here: all letters from here on, if there are any and they may be one.
    pub fn name(&mut self, letters: &Letters) -> Option<&'a [u8]> {
        let named = self.rest.iter().take_while(|byte| letters.has(**byte));
        let (name, rest) = self.rest.split_at(named.count());
        self.rest = rest;
        letters.may_be(name).then_some(name)
    }

    /// Goes past the rest of the line, and its end if it has one.
    pub fn pass_line(&mut self) {
        while let Some((eight, rest)) = self.rest.split_first_chunk() {
            // A byte of the difference is 0 where a line ends; the first that is found to be is.
            let other = u64::from_le_bytes(*eight) ^ (ONES * u64::from(b'\n'));
            let ends = other.wrapping_sub(ONES) & !other & (ONES << 7);
            if ends != 0 {
                return self.pass(ends.trailing_zeros() as usize / 8 + 1);
            }
            self.rest = rest;
        }
        let line = self.rest.iter().position(|&byte| byte == b'\n');
        self.pass(line.map_or(self.rest.len(), |end| end + 1));
    }
}
