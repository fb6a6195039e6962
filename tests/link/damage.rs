//! Nets damaged by chance.

use crate::nets::{Net, COLUMN, UNREAD};

/// Numbers by chance that are the same in every run (splitmix).
pub struct Chance(pub u64);

impl Chance {
    pub fn below(&mut self, end: u64) -> u64 {
        self.0 = self.0.wrapping_add(0x9e37_79b9_7f4a_7c15);
        let mut z = self.0;
        z = (z ^ (z >> 30)).wrapping_mul(0xbf58_476d_1ce4_e5b9);
        z = (z ^ (z >> 27)).wrapping_mul(0x94d0_49bb_1331_11eb);
        (z ^ (z >> 31)) % end
    }

    fn pick<T: Copy>(&mut self, from: &[T]) -> T {
        from[self.below(from.len() as u64) as usize]
    }

    /// A number about a bound, on either side of 0.
    fn odd_number(&mut self) -> i64 {
        let bound = self.pick(&[0, 1, 1024, 1 << 20, 1 << 25, 1 << 30, 1 << 36, i64::MAX - 1]) + self.pick(&[-1, 0, 1]);
        self.pick(&[bound, -bound])
    }
}

/// One number of one list, among those in use or past them.
fn change_number(net: &mut Net, chance: &mut Chance, value: i64) {
    let n = (net.n as usize).min(COLUMN);
    let which = chance.below(6) as usize;
    let used = if which == 0 || which == 4 { n * n } else { n };
    let range = if chance.below(4) == 0 { net.lists[which].len() } else { used };
    if range > 0 {
        net.lists[which][chance.below(range as u64) as usize] = value;
    }
}

/// A size that is out of range, at an end of its range, or the same but for a bit that a narrower argument loses.
fn other_size(size: u32, ends: &[u32], chance: &mut Chance) -> u32 {
    match chance.below(4) {
        0 => size ^ chance.pick(&[1 << 8, 1 << 16, 1 << 31]),
        _ => chance.pick(ends),
    }
}

/// A list that is too short, or longer than it need be.
fn other_length(net: &mut Net, chance: &mut Chance) {
    let which = chance.below(8) as usize;
    let length = net.lengths[which];
    if which < 6 && chance.below(4) == 0 {
        let longer = net.lists[which].len() + 256;
        net.lengths[which] = longer;
        net.lists[which].resize(longer, UNREAD);
    } else {
        net.lengths[which] = chance.pick(&[length.saturating_sub(1), length / 2, 0]);
    }
}

pub fn damage(net: &mut Net, chance: &mut Chance) {
    const SCALES: &[u32] = &[0, 1, 19, 20, 21, 63, 64, u32::MAX];
    match chance.below(9) {
        0 => other_length(net, chance),
        1 => net.n = other_size(net.n, &[0, 1, 2, 31, 32, 33, u32::MAX], chance),
        2 => net.s = other_size(net.s, SCALES, chance),
        3 => net.t = other_size(net.t, SCALES, chance),
        4 => {
            let value = chance.odd_number();
            change_number(net, chance, value);
        }
        5 => {
            let value = 1 + chance.below(1024) as i64;
            change_number(net, chance, value);
        }
        6 => net.lists[5][0] = 1 + chance.below(1024) as i64,
        7 => net.lists[2][0] = chance.pick(&[-1, 0, 1, 2, 31, 32, 33, 1 << 10, 1 << 20, (1 << 20) + 1]),
        _ => net.lists[3][0] = net.lists[3][0].saturating_add(chance.pick(&[-2, -1, 1, 2])),
    }
}
