//! What a call is lent: each list between sentinels, and what all of it must hold afterwards.

use crate::input::{Change, List};

/// A guard is as long as a column, so that a list written one column past its end stays in it.
const GUARD: usize = 32;
const MOST_WORDS: usize = 1 << 18;

pub struct Lent {
    held: Vec<u64>,
    right: Vec<u64>,
    lists: Vec<usize>,
    used: usize,
}

/// Another number at each place, and no byte that a right answer has at its end.
fn sentinel(at: usize) -> u64 {
    0x9e37_79b9_7f4a_7c15_u64.wrapping_mul(at as u64 + 1) | 0x8101_0101_8101_0101
}

/// Puts bytes into words, from a byte of a word on.
fn put(words: &mut [u64], word: usize, at: usize, bytes: &[u8]) {
    let words = &mut words[word..];
    assert!(at + bytes.len() <= 8 * words.len());
    unsafe { std::ptr::copy_nonoverlapping(bytes.as_ptr(), words.as_mut_ptr().cast::<u8>().add(at), bytes.len()) }
}

impl Lent {
    pub fn new() -> Lent {
        let mut lent = Lent { held: vec![0; MOST_WORDS], right: vec![0; MOST_WORDS], lists: Vec::new(), used: 0 };
        lent.guard(GUARD);
        lent
    }

    fn guard(&mut self, words: usize) {
        let from = self.used;
        self.used += words;
        (from..self.used).for_each(|at| self.held[at] = sentinel(at));
    }

    /// Takes back all lists but the first ones.
    pub fn keep(&mut self, count: usize) {
        self.used = self.lists.get(count).copied().unwrap_or(self.used);
        self.lists.truncate(count);
    }

    /// Lends a list, with sentinels past what is given and after it.
    pub fn lend(&mut self, list: &List) {
        let word = self.used;
        self.lists.push(word);
        self.guard(list.length.div_ceil(8) + GUARD);
        put(&mut self.held, word, 0, &list.bytes);
    }

    /// The list at a place among those lent; the largest place is a null pointer.
    pub fn pointer(&mut self, place: u64) -> *mut u8 {
        if place == u64::MAX {
            return std::ptr::null_mut();
        }
        self.held[self.lists[place as usize]..].as_mut_ptr().cast()
    }

    pub fn change(&mut self, change: &Change) {
        put(&mut self.held, self.lists[change.list], change.at, &change.bytes);
    }

    /// What must hold afterwards is what holds now, sentinels included, with these changes.
    pub fn expect(&mut self, changes: &[Change]) {
        self.right[..self.used].copy_from_slice(&self.held[..self.used]);
        changes.iter().for_each(|change| put(&mut self.right, self.lists[change.list], change.at, &change.bytes));
    }

    /// Whether all that is lent, the sentinels too, is as expected. It is made so for what comes next.
    pub fn is_as_expected(&mut self) -> bool {
        let (held, right) = (&mut self.held[..self.used], &self.right[..self.used]);
        let is_same = held == right;
        if !is_same {
            held.copy_from_slice(right);
        }
        is_same
    }
}
