//! Days: the planner's numbers and its whole later table, lent long, exact and one number short, and dirty.

use super::inputs::{self, Day};
use super::rng::Rng;
use super::tally::Tally;
use super::{archive, plan};

pub fn compare(tally: &mut Tally, rounds: usize) {
    let mut rng = Rng::new(4);
    for size in 2..=65 {
        plan_day(tally, &mut rng, &inputs::moving_day(size));
    }
    for boards in [1, 2, 64] {
        plan_day(tally, &mut rng, &(boards, vec![1_000_000; 64], vec![1_000_000; 64]));
        plan_day(tally, &mut rng, &(boards, vec![1_000_000; 65], vec![1_000_000; 65]));
        plan_day(tally, &mut rng, &(boards, vec![1; 1_000], vec![1_000_000; 1_000]));
    }
    for round in 0..rounds * 1_000 {
        let day = match round % 5 {
            0 => inputs::small_day(&mut rng),
            1 => inputs::small_tight_day(&mut rng),
            2 => inputs::small_spoiled_day(&mut rng),
            _ => inputs::day(&mut rng),
        };
        plan_day(tally, &mut rng, &day);
        if round % 50 == 0 {
            let day = inputs::middle_day(&mut rng);
            plan_day(tally, &mut rng, &day);
        }
    }
}

fn plan_day(tally: &mut Tally, rng: &mut Rng, day: &Day) {
    tally.count("days planned");
    let (boards, work, due) = day;
    let length = inputs::table_length(rng, work.len());
    let dirt: Vec<u32> = (0..length as u32).map(|i| i.wrapping_mul(0x85eb_ca6b) | 1).collect();
    let (mut ours, mut theirs) = (dirt.clone(), dirt);
    let answer = archive::plan(*boards, work, due, &mut ours);
    let expected = plan::plan(*boards, work, due, &mut theirs);
    tally.same("plan", answer, expected, day);
    tally.same("plan's table", ours, theirs, day);
}
