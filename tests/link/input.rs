//! What an emitter wrote: numbers and bytes, one after another; tests/common/replayed.py has the form of a call.

pub struct Input<'a>(pub &'a [u8]);

/// A list that is lent: so many bytes, of which the first are given.
pub struct List {
    pub length: usize,
    pub bytes: Vec<u8>,
}

/// Bytes of a lent list that are others, from this one on.
pub struct Change {
    pub list: usize,
    pub at: usize,
    pub bytes: Vec<u8>,
}

/// A call by its place in the header, how many lists stay lent from the call before, what is lent and changed before it, the right answer, and what is changed
/// afterwards.
pub struct Call {
    pub place: usize,
    pub kept: usize,
    pub lists: Vec<List>,
    pub before: Vec<Change>,
    pub arguments: Vec<u64>,
    pub number: u32,
    pub right: Vec<Change>,
}

impl Input<'_> {
    /// Whether no number is left.
    pub fn at_end(&mut self) -> bool {
        self.0 = self.0.trim_ascii_start();
        self.0.is_empty()
    }

    /// The next number; one below 0 as its 64 bits.
    pub fn number(&mut self) -> u64 {
        assert!(!self.at_end(), "what an emitter wrote stops in its middle");
        let digits = self.0.strip_prefix(b"-").unwrap_or(self.0);
        let end = digits.iter().position(|byte| !byte.is_ascii_digit()).unwrap_or(digits.len());
        assert!(end > 0, "a number is missing in what an emitter wrote");
        let number = digits[..end].iter().fold(0u64, |number, digit| number.wrapping_mul(10).wrapping_add(u64::from(digit - b'0')));
        let is_negative = digits.len() < self.0.len();
        self.0 = &digits[end..];
        if is_negative { number.wrapping_neg() } else { number }
    }

    pub fn length(&mut self) -> usize {
        self.number() as usize
    }

    /// So many numbers of so many bytes each, the lowest byte first; those of one byte are bytes that follow a line of numbers.
    fn bytes(&mut self, width: usize, count: usize) -> Vec<u8> {
        if width > 1 {
            let mut bytes = Vec::with_capacity(width * count);
            (0..count).for_each(|_| bytes.extend_from_slice(&self.number().to_le_bytes()[..width]));
            return bytes;
        }
        let (bytes, rest) = self.0.strip_prefix(b"\n").expect("a line feed is missing in what an emitter wrote").split_at(count);
        self.0 = rest;
        bytes.to_vec()
    }

    fn list(&mut self) -> List {
        let [width, length, given, filled] = std::array::from_fn(|_| self.length());
        let fill = self.number().to_le_bytes();
        let mut bytes = self.bytes(width, given);
        bytes.extend(fill[..width].repeat(filled));
        List { length: width * length, bytes }
    }

    fn change(&mut self) -> Change {
        let [list, at, width, count] = std::array::from_fn(|_| self.length());
        Change { list, at: at * width, bytes: self.bytes(width, count) }
    }

    pub fn call(&mut self) -> Call {
        let [place, kept, lists, before, arguments, number, right] = std::array::from_fn(|_| self.length());
        Call {
            place,
            kept,
            lists: (0..lists).map(|_| self.list()).collect(),
            before: (0..before).map(|_| self.change()).collect(),
            arguments: (0..arguments).map(|_| self.number()).collect(),
            number: number as u32,
            right: (0..right).map(|_| self.change()).collect(),
        }
    }
}
