//! The check on lists beside the version in Rust: every emitted call, and damaged ones of them, of which that version says what is right.

use crate::calls::NAMES;
use crate::damage::{damage, Chance};
use crate::input::Call;
use crate::nets::{Net, Outcome, COLUMN};
use crate::reckoning::check;
use crate::replay::Replay;

/// So many damaged calls of each emitted one are compared.
const DAMAGES: usize = 2;
const ENOUGH: usize = 20;
const NUMBERS: [usize; 6] = [0, 3, 5, 6, 7, 8];

/// The nets of the emitted calls, each with the right answer.
#[derive(Default)]
pub struct Checks(Vec<(Net, u32)>);

/// How often each answer was right, and how often of a call in which a right side has a tolerance.
#[derive(Default)]
struct Met {
    all: [usize; 9],
    tolerant: [usize; 9],
}

impl Met {
    fn add(&mut self, net: &Net, number: u32) {
        let used = &net.lists[2][..(net.n as usize).min(COLUMN)];
        self.all[number as usize] += 1;
        self.tolerant[number as usize] += usize::from(used.iter().any(|&tolerance| tolerance > 0));
    }

    fn test(&self, replay: &mut Replay, what: &str) {
        println!("{} {what} beside the version in Rust", self.all.iter().sum::<usize>());
        for number in NUMBERS {
            replay.test(what, number, self.all[number] >= ENOUGH);
            replay.test("with tolerances", number, self.tolerant[number] >= ENOUGH);
        }
    }
}

fn place() -> usize {
    NAMES.iter().position(|&name| name == "kodarfi_check").unwrap()
}

impl Checks {
    /// A call of the check, which the version in Rust answers alike.
    pub fn compare(&mut self, replay: &mut Replay, call: Call) {
        if call.place == place() {
            let net = Net::of(&call);
            replay.test("check in Rust", self.0.len(), check(&net) == Outcome::of(&call));
            self.0.push((net, call.number));
        }
    }

    /// That the emitted calls met what they must, and damaged calls of them.
    pub fn replay_damaged(&self, replay: &mut Replay) {
        if self.0.is_empty() {
            return;
        }
        let (mut chance, mut emitted, mut damaged) = (Chance(1), Met::default(), Met::default());
        self.0.iter().for_each(|(net, number)| emitted.add(net, *number));
        for mut net in self.0.iter().flat_map(|(net, _)| [net; DAMAGES]).cloned() {
            (0..=chance.below(2)).for_each(|_| damage(&mut net, &mut chance));
            let right = check(&net);
            replay.make(&net.call(place(), &right));
            damaged.add(&net, right.number);
        }
        emitted.test(replay, "checks");
        damaged.test(replay, "damaged checks");
    }
}
