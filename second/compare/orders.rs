//! Orders: the reader's numbers and both later buffers, lent long, exact and short, and dirty.

use super::inputs;
use super::rng::Rng;
use super::tally::Tally;
use super::{archive, order};

type Reader = fn(&[u8], &mut [u32], &mut [u32]) -> order::OrderRead;

pub fn compare(tally: &mut Tally, rounds: usize) {
    let mut rng = Rng::new(3);
    for case in inputs::cases() {
        for (work, due) in [(1_000, 1_000), (1_500, 1_000), (1_000, 1_500), (999, 1_000), (1_000, 999), (0, 0)] {
            read(tally, &case.file, work, due);
        }
    }
    for _ in 0..rounds {
        read(tally, &inputs::bracket_flood(&mut rng), 1_000, 1_000);
    }
    for _ in 0..rounds * 1_000 {
        let (work, due) = (length(&mut rng), length(&mut rng));
        read(tally, &inputs::good_order(&mut rng), work, due);
        read(tally, &inputs::damaged_order(&mut rng), work, due);
    }
}

/// Mostly just long enough.
fn length(rng: &mut Rng) -> usize {
    if rng.chance(90) {
        1_000
    } else {
        rng.pick(&[999, 1_001, 1_500, 2_000])
    }
}

/// The reader that ships and the pair of readers, each against the second program.
fn read(tally: &mut Tally, file: &[u8], work_length: usize, due_length: usize) {
    tally.count("orders read, by the loop and by the pair");
    let dirt = |length: usize| {
        (0..length as u32).map(|i| i.wrapping_mul(0x9e37_79b1) | 1).collect::<Vec<u32>>()
    };
    let (mut work, mut due) = (dirt(work_length), dirt(due_length));
    let expected = (order::read_order(file, &mut work, &mut due), work, due);
    let text = String::from_utf8_lossy(&file[..file.len().min(200)]);
    let readers: [(&str, Reader); 2] =
        [("read_order", archive::read_order), ("the pair", archive::pair_order)];
    for (name, reader) in readers {
        let (mut work, mut due) = (dirt(work_length), dirt(due_length));
        let said = reader(file, &mut work, &mut due);
        tally.same(name, &(said, work, due), &expected, &text);
    }
}
