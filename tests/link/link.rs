//! The replay in Rust: each call that the emitters wrote is made to the library, and all that it was lent is compared with what the oracle says, each list,
//! each place and each sentinel. The check on lists, damaged calls included, is compared with a version in Rust too.
//!
//!   link FILE..          on the files that emitters wrote
//!   link --first FILE..  up to the first test that fails
//!
//! The last line is 'N passed, M failed'.

mod calls {
    include!(env!("CALLS")); // which tests/link/calls.py writes from include/kodarfi.h
}
mod checks;
mod damage;
mod input;
mod lent;
mod nets;
mod reckoning;
mod replay;

use checks::Checks;
use replay::Replay;
use std::process::exit;

pub fn main() {
    let arguments: Vec<String> = std::env::args().skip(1).collect();
    let stops = arguments.first().is_some_and(|argument| argument == "--first");
    let (mut replay, mut checks) = (Replay::new(stops), Checks::default());
    for path in &arguments[usize::from(stops)..] {
        let bytes = std::fs::read(path).unwrap_or_else(|error| {
            eprintln!("{path}: {error}");
            exit(2)
        });
        replay.file(&bytes, |replay, call| checks.compare(replay, call));
    }
    replay.test_answers();
    checks.replay_damaged(&mut replay);
    replay.close()
}
