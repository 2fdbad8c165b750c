//! The second program for C: the same calls as the archive's under the prefix `second_`, its inputs drawn from a seed, and
//! the maximum flow. second.h declares them. The only unsafe lines take C's pointers in.

#![allow(dead_code)]

#[path = "../src/check.rs"]
mod check;
#[path = "../src/flow.rs"]
mod flow;
#[path = "../src/inputs.rs"]
mod inputs;
#[path = "../src/order.rs"]
mod order;
#[path = "../src/plan.rs"]
mod plan;
#[path = "../src/planfile.rs"]
mod planfile;
#[path = "../src/rng.rs"]
mod rng;

use rng::Rng;

/// A lent list, as C hands it over.
#[repr(C)]
pub struct Lent<T> {
    at: *mut T,
    count: usize,
}

impl<T: Copy> Lent<T> {
    fn list(&mut self) -> &mut [T] {
        if self.count == 0 {
            return &mut [];
        }
        unsafe { std::slice::from_raw_parts_mut(self.at, self.count) }
    }

    /// The front of the list takes all of it; what does not fit is the caller's mistake.
    fn fill(&mut self, from: &[T]) {
        self.list()[..from.len()].copy_from_slice(from);
        self.count = from.len();
    }
}

#[repr(C)]
pub struct Three(u32, u32, u32);

#[repr(C)]
pub struct Four(u32, u32, u32, u32);

#[no_mangle]
pub extern "C" fn second_read_order(mut file: Lent<u8>, mut work: Lent<u32>, mut due: Lent<u32>) -> Four {
    let said = order::read_order(file.list(), work.list(), due.list());
    Four(said.refusal, said.place, said.boards, said.jobs)
}

#[no_mangle]
pub extern "C" fn second_plan(boards: u32, mut work: Lent<u32>, mut due: Lent<u32>, mut table: Lent<u32>) -> Three {
    let said = plan::plan(boards, work.list(), due.list(), table.list());
    Three(said.refusal, said.place, said.rows)
}

#[no_mangle]
pub extern "C" fn second_check(
    boards: u32,
    mut work: Lent<u32>,
    mut due: Lent<u32>,
    mut table: Lent<u32>,
    rows: usize,
) -> Four {
    let said = check::check(boards, work.list(), due.list(), table.list(), rows);
    Four(said.refusal, said.place, said.yes, said.preemptions)
}

#[no_mangle]
pub extern "C" fn second_find_rows(mut file: Lent<u8>) -> Four {
    let said = planfile::read_plan_file(file.list());
    Four(said.refusal, said.place, said.offset as u32, said.length as u32)
}

#[no_mangle]
pub extern "C" fn second_file_row(mut file: Lent<u8>, i: usize) -> Four {
    let file = file.list();
    let part = planfile::read_plan_file(file);
    let [board, job, from, to] = planfile::decode_row(&file[part.offset..part.offset + part.length], i);
    Four(board, job, from, to)
}

#[no_mangle]
pub extern "C" fn second_write_plan(mut table: Lent<u32>, count: usize, mut buffer: Lent<u8>, note: usize) -> Three {
    let said = planfile::write_plan_file(table.list(), count, buffer.list(), note);
    Three(said.refusal, said.place, said.length as u32)
}

/// Whether a plan exists at all, by maximum flow.
#[no_mangle]
pub extern "C" fn second_plan_exists(boards: u32, mut work: Lent<u32>, mut due: Lent<u32>) -> u32 {
    let jobs: Vec<usize> = (0..work.count).collect();
    u32::from(flow::plan_exists(boards, work.list(), due.list(), &jobs))
}

/// An order file: good, damaged, a flood of brackets, or one of the fixed cases.
#[no_mangle]
pub extern "C" fn second_draw_order(seed: u64, file: &mut Lent<u8>) {
    let rng = &mut Rng::new(seed);
    let drawn = match rng.below(200) {
        0 => inputs::bracket_flood(rng),
        1 => {
            let mut cases = inputs::cases();
            cases.swap_remove(rng.below(cases.len())).file
        }
        2..=99 => inputs::good_order(rng),
        _ => inputs::damaged_order(rng),
    };
    file.fill(&drawn);
}

/// A day of any kind, also such as the planner has to refuse.
#[no_mangle]
pub extern "C" fn second_draw_day(seed: u64, work: &mut Lent<u32>, due: &mut Lent<u32>) -> u32 {
    let rng = &mut Rng::new(seed);
    let (boards, works, dues) = match rng.below(200) {
        0..=2 => inputs::middle_day(rng),
        3 => inputs::moving_day(rng.within(2, 65)),
        4 => (rng.within(1, 64), vec![1; 1_000], vec![1_000_000; 1_000]),
        5..=40 => inputs::small_day(rng),
        41..=80 => inputs::small_tight_day(rng),
        81..=120 => inputs::small_spoiled_day(rng),
        _ => inputs::day(rng),
    };
    work.fill(&works);
    due.fill(&dues);
    boards
}

/// A day with a plan and little time to spare, of at most so many jobs and so many different due minutes.
#[no_mangle]
pub extern "C" fn second_draw_tight_day(
    boards: u32,
    jobs: usize,
    stretches: usize,
    work: &mut Lent<u32>,
    due: &mut Lent<u32>,
) {
    let rng = &mut Rng::new(1);
    let longest = order::MOST_MINUTES / stretches as u32;
    let (_, works, dues) = inputs::tight_day(rng, boards, jobs, stretches, longest);
    work.fill(&works);
    due.fill(&dues);
}

/// A length for the planner's table, round the least that is taken.
#[no_mangle]
pub extern "C" fn second_draw_table_length(seed: u64, jobs: usize) -> usize {
    inputs::table_length(&mut Rng::new(seed), jobs)
}

/// A table for the checker; the row count comes back, and may not fit.
#[no_mangle]
pub extern "C" fn second_draw_table(
    seed: u64,
    boards: u32,
    mut work: Lent<u32>,
    mut due: Lent<u32>,
    table: &mut Lent<u32>,
) -> usize {
    let (rows, count) = inputs::table(&mut Rng::new(seed), boards, work.list(), due.list());
    table.fill(&rows);
    count
}

/// A plan file, good or damaged, short or of the greatest sizes.
#[no_mangle]
pub extern "C" fn second_draw_plan_file(seed: u64, file: &mut Lent<u8>) {
    let rng = &mut Rng::new(seed);
    let drawn = match rng.below(500) {
        0 => rng_one(rng, inputs::long_plan_files()),
        1..=20 => rng_one(rng, inputs::short_plan_files()),
        21..=200 => inputs::plan_file(rng),
        _ => inputs::damaged_plan_file(rng),
    };
    file.fill(&drawn);
}

fn rng_one<T>(rng: &mut Rng, mut list: Vec<T>) -> T {
    list.swap_remove(rng.below(list.len()))
}

/// A call of the writer: table and buffer are filled, count and note come back.
#[no_mangle]
pub extern "C" fn second_draw_writer_call(
    seed: u64,
    table: &mut Lent<u32>,
    buffer: &mut Lent<u8>,
    count: &mut usize,
    note: &mut usize,
) {
    let rng = &mut Rng::new(seed);
    let call = if rng.below(200) == 0 {
        rng_one(rng, inputs::long_writer_calls())
    } else {
        inputs::writer_call(rng)
    };
    table.fill(&call.table);
    buffer.fill(&call.buffer);
    *count = call.count;
    *note = call.note;
}
