//! The proved archives against the second program, on the second program's inputs: `compare [rounds]`,
//! where a round is 1,000 inputs of each kind. Every number that is answered and every later buffer is
//! compared whole.

#![allow(dead_code)]

#[path = "../src/check.rs"]
mod check;
#[path = "../src/flow.rs"]
mod flow;
#[path = "../src/inputs.rs"]
mod inputs;
#[path = "../src/order.rs"]
mod order;
#[path = "../src/plan.rs"]
mod plan;
#[path = "../src/planfile.rs"]
mod planfile;
#[path = "../src/rng.rs"]
mod rng;

mod archive;
mod days;
mod orders;
mod planfiles;
mod tables;
mod tally;

use std::process::ExitCode;
use tally::Tally;

const DEFAULT_ROUNDS: usize = 100;

fn main() -> ExitCode {
    let rounds = match std::env::args().nth(1).map(|word| word.parse()) {
        None => DEFAULT_ROUNDS,
        Some(Ok(rounds)) => rounds,
        Some(Err(_)) => {
            eprintln!("usage: compare [rounds]");
            return ExitCode::from(2);
        }
    };
    let mut tally = Tally::new();
    orders::compare(&mut tally, rounds);
    days::compare(&mut tally, rounds);
    tables::compare(&mut tally, rounds);
    planfiles::compare(&mut tally, rounds);
    print!("{}", tally.summary());
    if tally.differences() == 0 {
        ExitCode::SUCCESS
    } else {
        ExitCode::FAILURE
    }
}
