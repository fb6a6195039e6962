//! Nets as a call of kodarfi_check has them.

use crate::input::{Call, Change, List};

pub const MATRIX: usize = 1024;
pub const COLUMN: usize = 32;
/// Stands in the lists past the numbers given: outside every range.
pub const UNREAD: i64 = i64::MIN;
/// The places of both lists of limits and of the two places among the lists of a call, behind the lists of the net.
const LEFT: [usize; 3] = [6, 7, 8];

/// The lists of a net, each of full length (matrix, right sides, tolerances, guess, inverse and weights), and the lengths that a call is given of them and of
/// both lists of limits.
#[derive(Clone)]
pub struct Net {
    pub n: u32,
    pub s: u32,
    pub t: u32,
    pub lists: [Vec<i64>; 6],
    pub lengths: [usize; 8],
}

/// What a check leaves: the number (0 where accepted), its places, and where it is accepted both lists of limits.
#[derive(PartialEq)]
pub struct Outcome {
    pub number: u32,
    pub places: [u64; 2],
    pub solution: Vec<u64>,
    pub inverse: Vec<u64>,
}

fn numbers(bytes: &[u8]) -> impl Iterator<Item = u64> + '_ {
    bytes.chunks_exact(8).map(|number| u64::from_le_bytes(number.try_into().unwrap()))
}

fn bytes(numbers: impl IntoIterator<Item = u64>) -> Vec<u8> {
    numbers.into_iter().flat_map(u64::to_le_bytes).collect()
}

impl Outcome {
    pub fn refused(number: u32, places: [u64; 2]) -> Outcome {
        Outcome { number, places, solution: Vec::new(), inverse: Vec::new() }
    }

    /// What is right of a call.
    pub fn of(call: &Call) -> Outcome {
        let [solution, inverse, places] = LEFT.map(|list| call.right.iter().filter(|change| change.list == list).flat_map(|change| numbers(&change.bytes)).collect::<Vec<u64>>());
        Outcome { number: call.number, places: [places[0], places[1]], solution, inverse }
    }
}

impl Net {
    /// The net of a call of kodarfi_check.
    pub fn of(call: &Call) -> Net {
        let a = &call.arguments;
        Net {
            n: a[0] as u32,
            s: a[1] as u32,
            t: a[2] as u32,
            lists: std::array::from_fn(|k| numbers(&call.lists[k].bytes).map(|number| number as i64).collect()),
            lengths: std::array::from_fn(|k| a[2 * k + 4] as usize),
        }
    }

    /// A call of the same form on this net, of which this is right.
    pub fn call(&self, place: usize, right: &Outcome) -> Call {
        let read = self.lists.iter().map(|list| List { length: 8 * list.len(), bytes: bytes(list.iter().map(|&number| number as u64)) });
        let written = [COLUMN, MATRIX, 2].map(|length| List { length: 8 * length, bytes: Vec::new() });
        let lists = self.lengths.iter().enumerate().flat_map(|(k, &length)| [k as u64, length as u64]);
        let left = [right.solution.clone(), right.inverse.clone(), right.places.to_vec()];
        Call {
            place,
            kept: 0,
            lists: read.chain(written).collect(),
            before: Vec::new(),
            arguments: [self.n, self.s, self.t].map(u64::from).into_iter().chain(lists).chain([LEFT[2] as u64]).collect(),
            number: right.number,
            right: LEFT.into_iter().zip(left).map(|(list, numbers)| Change { list, at: 0, bytes: bytes(numbers) }).collect(),
        }
    }
}
