//! The replay of calls, and how tests are counted. The first that fail are named.

use crate::calls::{make_call, NAMES};
use crate::input::{Call, Input};
use crate::lent::Lent;
use std::process::exit;

const ANSWERS: usize = 32;
const ENOUGH: usize = 20;

/// Of one call, how often it was made and each answer was right, and the answers that must be met, a bit each.
#[derive(Clone, Copy, Default)]
struct Met {
    calls: usize,
    answers: [usize; ANSWERS],
    wanted: u64,
}

pub struct Replay {
    stops: bool,
    passed: usize,
    failed: usize,
    lent: Lent,
    met: Vec<Met>,
}

impl Replay {
    /// One that may stop at the first test that fails.
    pub fn new(stops: bool) -> Replay {
        Replay { stops, passed: 0, failed: 0, lent: Lent::new(), met: vec![Met::default(); NAMES.len()] }
    }

    pub fn test(&mut self, what: &str, index: usize, holds: bool) {
        if holds {
            self.passed += 1;
            return;
        }
        self.failed += 1;
        if self.failed <= 20 {
            println!("FAILED {what} {index}");
        }
        if self.stops {
            self.close();
        }
    }

    pub fn close(&self) -> ! {
        println!("{} passed, {} failed", self.passed, self.failed);
        exit(i32::from(self.failed > 0))
    }

    /// Makes a call: where the right number is said, and all that was lent is as expected, it has passed.
    pub fn make(&mut self, call: &Call) {
        let (lent, met) = (&mut self.lent, &mut self.met[call.place]);
        lent.keep(call.kept);
        call.lists.iter().for_each(|list| lent.lend(list));
        call.before.iter().for_each(|change| lent.change(change));
        lent.expect(&call.right);
        let said = unsafe { make_call(call.place, &call.arguments, |place| lent.pointer(place)) };
        let is_left = lent.is_as_expected();
        met.calls += 1;
        met.answers[call.number as usize % ANSWERS] += 1;
        let index = met.calls - 1;
        self.test(NAMES[call.place], index, said == call.number && is_left);
    }

    /// Makes the calls that an emitter wrote, each of which is handed on.
    pub fn file(&mut self, bytes: &[u8], mut each: impl FnMut(&mut Replay, Call)) {
        let mut input = Input(bytes);
        for _ in 0..input.number() {
            let place = input.length();
            self.met[place].wanted = input.number();
        }
        while !input.at_end() {
            let call = input.call();
            self.make(&call);
            each(self, call);
        }
    }

    /// That each answer that must be met of a call was right often enough.
    pub fn test_answers(&mut self) {
        for (place, Met { calls, answers, wanted }) in self.met.clone().into_iter().enumerate().filter(|(_, met)| met.wanted > 0) {
            let numbers: Vec<usize> = (0..ANSWERS).filter(|number| wanted >> number & 1 == 1).collect();
            let shown: Vec<String> = numbers.iter().map(|&number| format!("{number}: {}", answers[number])).collect();
            println!("{calls} calls of {}: {}", NAMES[place], shown.join(" "));
            numbers.iter().for_each(|&number| self.test(NAMES[place], number, answers[number] >= ENOUGH));
        }
    }
}
