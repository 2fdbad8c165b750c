//! Tables: the checker's answer on the planner's tables and on spoiled ones.

use super::inputs::{self, Day};
use super::rng::Rng;
use super::tally::Tally;
use super::{archive, check};

pub fn compare(tally: &mut Tally, rounds: usize) {
    let mut rng = Rng::new(5);
    for round in 0..rounds * 1_000 {
        let day = match round % 4 {
            0 => inputs::small_day(&mut rng),
            1 | 2 => inputs::small_tight_day(&mut rng),
            _ => inputs::day(&mut rng),
        };
        check_table(tally, &mut rng, &day);
        if round % 100 == 0 {
            let day = inputs::middle_day(&mut rng);
            check_table(tally, &mut rng, &day);
        }
    }
}

fn check_table(tally: &mut Tally, rng: &mut Rng, day: &Day) {
    tally.count("tables checked");
    let (boards, work, due) = day;
    let (table, rows) = inputs::table(rng, *boards, work, due);
    let ours = archive::check(*boards, work, due, &table, rows);
    tally.same("check", ours, check::check(*boards, work, due, &table, rows), &(day, &table, rows));
}
