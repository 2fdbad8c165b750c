//! The second program tested against itself: the fixed cases, the planner
//! against the flow, one checker against the other, files against what can
//! be said of them without reading them by the grammar.

use super::check::{check, check_by_minutes, Checked};
use super::flow::{first_misfit, plan_exists};
use super::inputs::{self, Case, WriterCall};
use super::listing::listing;
use super::order::{read_order, OrderRead, MOST_BOARDS, MOST_BYTES, MOST_JOBS, MOST_MINUTES};
use super::plan::{due_order, plan, Planned, Row};
use super::planfile::{decode_row, read_plan_file, write_plan_file, PlanRead, PlanWritten};
use super::rng::Rng;

/// What was tried, and what came out otherwise than expected.
#[derive(Default)]
pub struct Tally {
    cases: usize,
    days: usize,
    planned: usize,
    mixed: usize,
    tables: usize,
    orders: usize,
    accepted: usize,
    plan_files: usize,
    differences: Vec<String>,
}

impl Tally {
    pub fn differences(&self) -> usize {
        self.differences.len()
    }

    fn expect(&mut self, good: bool, what: impl FnOnce() -> String) {
        if !good {
            self.differences.push(what());
        }
    }

    pub fn summary(&self) -> String {
        let shown = self.differences.iter().take(20);
        let mut text: String = shown.map(|what| format!("difference: {what}\n")).collect();
        text += &format!("cases {}\n", self.cases);
        text += &format!("days against the flow {}, with a plan {}\n", self.days, self.planned);
        text += &format!("days of any kind, refusals only {}\n", self.mixed);
        text += &format!("tables {}\n", self.tables);
        text += &format!("order files {}, accepted {}\n", self.orders, self.accepted);
        text += &format!("plan files {}\n", self.plan_files);
        text += &format!("second: {} days, {} differences\n", self.days, self.differences());
        text
    }
}

/// The whole test; `days` is the number of small days, all else follows it.
pub fn run(days: usize) -> Tally {
    let mut tally = Tally::default();
    fixed_cases(&mut tally);
    sheet_tables(&mut tally);
    run_only(&mut tally);
    moving_days(&mut tally);
    orders_of_refusals(&mut tally);
    every_tiny_day(&mut tally);
    small_days(&mut tally, days);
    middle_days(&mut tally, days / 6);
    mixed_days(&mut tally, days);
    order_files(&mut tally, days.saturating_mul(4));
    plan_files(&mut tally, days.saturating_mul(4));
    writer_calls(&mut tally, days.saturating_mul(2));
    tally
}

// ----------------------------------------------------------- fixed cases

fn fixed_cases(tally: &mut Tally) {
    for Case { name, file, expected } in inputs::cases() {
        tally.cases += 1;
        tally.expect(listing(&file) == expected, || format!("case {name}"));
        judge_order(tally, &file);
    }
}

/// A day sheet: boards, work/due pairs, the rows or the job of refusal 9.
type Sheet<'a> = (u32, &'a [(u32, u32)], Result<&'a [Row], u32>);

/// P1 to P8 and P13 straight through the planner and the checker.
fn sheet_tables(tally: &mut Tally) {
    let p5 = [(2, 2), (2, 2), (1, 4), (2, 4), (4, 4)];
    let p5_rows = [[1, 1, 0, 2], [2, 2, 0, 2], [1, 3, 2, 3], [2, 4, 2, 4], [3, 5, 0, 4]];
    let p3_rows = [[1, 1, 0, 2], [1, 2, 2, 3], [2, 2, 0, 1], [2, 3, 1, 3]];
    let sheets: [Sheet; 9] = [
        (1, &[(5, 5)], Ok(&[[1, 1, 0, 5]])),
        (1, &[(6, 5)], Err(1)),
        (2, &[(2, 3), (2, 3), (2, 3)], Ok(&p3_rows)),
        (2, &[(2, 3), (2, 3), (3, 3)], Err(3)),
        (3, &p5, Ok(&p5_rows)),
        (2, &[(2, 3), (3, 3), (1, 3)], Ok(&[[1, 1, 0, 2], [2, 2, 0, 3], [1, 3, 2, 3]])),
        (2, &[(2, 3), (2, 3)], Ok(&[[1, 1, 0, 2], [2, 2, 0, 2]])),
        (1, &[(2, 5), (1, 1)], Ok(&[[1, 2, 0, 1], [1, 1, 1, 3]])),
        (1, &[(2, 2), (1, 2), (1, 5)], Err(2)),
    ];
    for sheet in sheets {
        tally.cases += 1;
        sheet_table(tally, sheet);
    }
}

fn sheet_table(tally: &mut Tally, (boards, pairs, expected): Sheet) {
    let (work, due): (Vec<u32>, Vec<u32>) = pairs.iter().copied().unzip();
    let mut table = vec![77; 8 * work.len() + 5];
    let planned = plan(boards, &work, &due, &mut table);
    let (answer, rows): (Planned, &[Row]) = match expected {
        Ok(rows) => (Planned { refusal: 0, place: 0, rows: rows.len() as u32 }, rows),
        Err(job) => (Planned { refusal: 9, place: job, rows: 0 }, &[]),
    };
    let mut filled = rows.concat();
    filled.resize(table.len(), 0);
    tally.expect(planned == answer && table == filled, || format!("sheet {pairs:?}"));
    if !rows.is_empty() {
        let preemptions = (rows.len() - work.len()) as u32;
        let yes = Checked { refusal: 0, place: 0, yes: 1, preemptions };
        let checked = check(boards, &work, &due, &table, rows.len());
        tally.expect(checked == yes, || format!("sheet checked {pairs:?}"));
    }
}

/// The page's run-only days; its files are among the fixed cases.
fn run_only(tally: &mut Tally) {
    let long = MOST_MINUTES;
    let (mut work, mut due) = (vec![long; 64], vec![long; 64]);
    judge_day(tally, MOST_BOARDS, &work, &due, false);
    let mut table = vec![7; 8 * 65];
    let planned = plan(MOST_BOARDS, &work, &due, &mut table);
    let rows: Vec<u32> = (1..=64).flat_map(|i| [i, i, 0, long]).collect();
    tally.expect(planned == Planned { refusal: 0, place: 0, rows: 64 }, || "full day".into());
    let zeros_behind = table[256..].iter().all(|&number| number == 0);
    tally.expect(table[..256] == rows && zeros_behind, || "full day's rows".into());
    work.push(1);
    due.push(long);
    judge_day(tally, MOST_BOARDS, &work, &due, false);
    let planned = plan(MOST_BOARDS, &work, &due, &mut table);
    tally.expect(planned == Planned { refusal: 9, place: 65, rows: 0 }, || "65th job".into());
    tally.cases += 2;
}

/// The days that need every move the row bound allows: n - 2 for n jobs.
fn moving_days(tally: &mut Tally) {
    for size in 2..=65 {
        tally.cases += 1;
        let (boards, work, due) = inputs::moving_day(size);
        judge_day(tally, boards, &work, &due, true);
        let rows = inputs::planned_rows(boards, &work, &due).len();
        tally.expect(rows == 2 * work.len() - 2, || format!("moving day {size}: {rows} rows"));
    }
}

// ---------------------------------------------------- order of refusals

/// Each refusal with all later ones present too, so that their order shows.
fn orders_of_refusals(tally: &mut Tally) {
    planner_refusals(tally);
    checker_refusals(tally);
    reader_refusals(tally);
    writer_refusals(tally);
}

fn planner_refusals(tally: &mut Tally) {
    let table_of_16 = 16;
    type Call<'a> = (u32, &'a [u32], &'a [u32], usize, u32, u32);
    let many = [1; 1_001];
    let calls: [Call; 12] = [
        (0, &[0], &[], 0, 12, 0),
        (65, &[0], &[1], 0, 12, 0),
        (u32::MAX, &[1], &[1], 8, 12, 0),
        (1, &[0], &[], 0, 13, 0),
        (1, &[], &[], 0, 13, 0),
        (1, &many, &many, 0, 13, 0),
        (1, &[0, 1], &[1, 1], 15, 10, 0),
        (1, &[1, 0], &[1, 1], table_of_16, 14, 2),
        (1, &[9, 1], &[1, 1_000_001], table_of_16, 14, 2),
        (1, &[1, 0], &[u32::MAX, 0], table_of_16, 14, 1),
        (1, &[1, 9], &[1, 9], table_of_16, 9, 2),
        (64, &[1, 9], &[1, 9], table_of_16, 0, 0),
    ];
    for (boards, work, due, length, refusal, place) in calls {
        tally.cases += 1;
        let mut table = vec![77; length];
        let planned = plan(boards, work, due, &mut table);
        let answer = (planned.refusal, planned.place);
        tally.expect(answer == (refusal, place), || format!("planner refusal {planned:?}"));
        let kept = table.iter().all(|&number| number == 77);
        let cleared = table.iter().all(|&number| number == 0);
        let buffer_good = match refusal {
            0 => planned.rows == 2 && !kept,
            9 => planned.rows == 0 && cleared,
            _ => planned.rows == 0 && kept,
        };
        tally.expect(buffer_good, || format!("planner table after {planned:?}"));
    }
}

fn checker_refusals(tally: &mut Tally) {
    type Call<'a> = (u32, &'a [u32], &'a [u32], &'a [u32], usize, [u32; 4]);
    let many = [1; 1_001];
    let long = [1; 8_004];
    let good = [1, 1, 0, 1, 1, 2, 2, 4];
    let huge = usize::MAX;
    let calls: [Call; 17] = [
        (0, &[0], &[], &[], huge, [12, 0, 0, 0]),
        (65, &[1], &[1], &[], 0, [12, 0, 0, 0]),
        (1, &[0], &[], &[], 0, [13, 0, 0, 0]),
        (1, &[], &[], &[], 0, [13, 0, 0, 0]),
        (1, &many, &many, &[], 0, [13, 0, 0, 0]),
        (1, &[0], &[1], &long, 2_001, [13, 0, 0, 0]),
        (1, &[0], &[1], &long, huge, [13, 0, 0, 0]),
        (1, &[0], &[1], &long, huge / 4 + 1, [13, 0, 0, 0]),
        (1, &[0], &[1], &[1, 1, 0], 1, [13, 0, 0, 0]),
        (1, &[1, 0], &[1, 1], &[9, 9, 9, 9], 1, [14, 2, 0, 0]),
        (1, &[1, 1], &[0, 0], &[], 0, [14, 1, 0, 0]),
        (1, &[1], &[1], &long, 2_000, [0, 0, 0, 0]),
        (1, &[1], &[1], &[], 0, [0, 0, 0, 0]),
        (1, &[1], &[1], &[1, 1, u32::MAX, 0], 1, [0, 0, 0, 0]),
        (1, &[1, 2], &[9, 9], &good, 2, [0, 0, 1, 0]),
        (1, &[1, 2], &[9, 9], &[1, 2, 2, 3, 1, 1, 0, 1, 1, 2, 3, 4], 3, [0, 0, 1, 1]),
        (1, &[1, 2], &[9, 9], &[1, 1, 1, 2, 1, 2, 1, 3], 2, [0, 0, 0, 0]),
    ];
    for (boards, work, due, table, rows, expected) in calls {
        tally.cases += 1;
        for checker in [check, check_by_minutes] {
            let got = checker(boards, work, due, table, rows);
            let numbers = [got.refusal, got.place, got.yes, got.preemptions];
            tally.expect(numbers == expected, || format!("checker {got:?} for {expected:?}"));
        }
    }
}

fn reader_refusals(tally: &mut Tally) {
    let too_long = vec![b'%'; MOST_BYTES + 1];
    let calls: [(&[u8], usize, usize, u32); 6] = [
        (&too_long, 999, 1_000, 10),
        (&too_long, 1_000, 999, 10),
        (&too_long, 0, 0, 10),
        (&too_long, 1_000, 1_000, 11),
        (b"%", 1_000, 1_234, 1),
        (b"(order 3 (job 4 5))", 1_234, 1_000, 0),
    ];
    for (file, work_length, due_length, refusal) in calls {
        tally.cases += 1;
        let (mut work, mut due) = (vec![77; work_length], vec![77; due_length]);
        let read = read_order(file, &mut work, &mut due);
        tally.expect(read.refusal == refusal, || format!("reader refusal {read:?}"));
        let rest = if refusal == 10 || refusal == 11 { 77 } else { 0 };
        let (first_work, first_due) = if refusal == 0 { (4, 5) } else { (rest, rest) };
        let filled = list_is(&work, first_work, rest) && list_is(&due, first_due, rest);
        tally.expect(filled, || format!("reader buffers after {read:?}"));
    }
}

/// A first number and then the same to the end; the empty list is as good.
fn list_is(list: &[u32], first: u32, rest: u32) -> bool {
    list.iter().enumerate().all(|(i, &number)| number == if i == 0 { first } else { rest })
}

fn writer_refusals(tally: &mut Tally) {
    let high_board = [1, 1, 0, 1, 65_536, 1, 0, 1];
    let long = vec![65_536; 8_004];
    let huge = usize::MAX;
    type Call<'a> = (&'a [u32], usize, usize, usize, [u32; 2], usize);
    let calls: [Call; 13] = [
        (&high_board, 3, 0, huge, [13, 0], 0),
        (&high_board, huge, 0, huge, [13, 0], 0),
        (&high_board, huge / 4 + 1, 0, 0, [13, 0], 0),
        (&long, 2_002, 0, 0, [13, 0], 0),
        (&long, 2_001, 0, 0, [11, 0], 0),
        (&high_board, 2, 0, huge, [11, 0], 0),
        (&high_board, 2, 0, huge - 31, [11, 0], 0),
        (&high_board, 2, 0, 65_505, [11, 0], 0),
        (&high_board, 2, 0, 65_504, [14, 2], 0),
        (&high_board, 1, 19, 0, [10, 0], 0),
        (&high_board, 1, 20, 1, [10, 0], 0),
        (&high_board, 1, 21, 1, [0, 0], 21),
        (&[], 0, 8, 0, [0, 0], 8),
    ];
    for (table, count, length, note, answer, written) in calls {
        tally.cases += 1;
        let mut buffer = vec![77; length];
        let got = write_plan_file(table, count, &mut buffer, note);
        let expected = PlanWritten { refusal: answer[0], place: answer[1], length: written };
        tally.expect(got == expected, || format!("writer {got:?} for {expected:?}"));
    }
}

// ------------------------------------------------------------------ days

/// All days of one to three jobs with numbers up to 3 on one to three boards.
fn every_tiny_day(tally: &mut Tally) {
    for jobs in 1..=3u32 {
        for code in 0..9usize.pow(jobs) {
            let pair = |job: u32| code / 9usize.pow(job) % 9;
            let work: Vec<u32> = (0..jobs).map(|job| pair(job) as u32 % 3 + 1).collect();
            let due: Vec<u32> = (0..jobs).map(|job| pair(job) as u32 / 3 + 1).collect();
            for boards in 1..=3 {
                judge_day(tally, boards, &work, &due, true);
            }
        }
    }
}

fn small_days(tally: &mut Tally, count: usize) {
    let mut rng = Rng::new(1);
    for _ in 0..count {
        let kind = rng.below(4);
        let (boards, work, due) = match kind {
            0 => inputs::small_tight_day(&mut rng),
            1 => inputs::small_spoiled_day(&mut rng),
            _ => inputs::small_day(&mut rng),
        };
        let planned = judge_day(tally, boards, &work, &due, true);
        // A tight day was cut out of a plan: that one exists needs no flow.
        tally.expect(kind != 0 || planned.refusal == 0, || format!("tight day {planned:?}"));
        judge_tables(tally, &mut rng, boards, &work, &due, 3);
    }
}

fn middle_days(tally: &mut Tally, count: usize) {
    let mut rng = Rng::new(2);
    for _ in 0..count {
        let (boards, work, due) = inputs::middle_day(&mut rng);
        judge_day(tally, boards, &work, &due, false);
        judge_tables(tally, &mut rng, boards, &work, &due, 1);
    }
    // One at the full size: hundreds of jobs and as many stretches.
    let (boards, work, due) = inputs::tight_day(&mut rng, 64, 1_000, 1_000, 9);
    let planned = judge_day(tally, boards, &work, &due, false);
    tally.expect(planned.refusal == 0, || format!("great tight day {planned:?}"));
}

/// Days of any kind with tables of any length: the refusals, and the table.
fn mixed_days(tally: &mut Tally, count: usize) {
    let mut rng = Rng::new(3);
    for _ in 0..count {
        let (boards, work, due) = inputs::day(&mut rng);
        tally.mixed += 1;
        let mut table = vec![77; inputs::table_length(&mut rng, work.len())];
        let planned = plan(boards, &work, &due, &mut table);
        let expected = refusal_of_day(boards, &work, &due, table.len());
        let early = |(refusal, place)| planned == Planned { refusal, place, rows: 0 };
        let good = match expected {
            Some(answer) => early(answer) && table.iter().all(|&number| number == 77),
            None => planned.refusal == 0 || planned.refusal == 9,
        };
        tally.expect(good, || format!("day {planned:?} for {expected:?}"));
        judge_tables(tally, &mut rng, boards, &work, &due, 1);
    }
}

/// The planner's refusals 12, 13, 10 and 14, written out once more.
fn refusal_of_day(boards: u32, work: &[u32], due: &[u32], table: usize) -> Option<(u32, u32)> {
    let jobs = work.len();
    if boards == 0 || boards > 64 {
        return Some((12, 0));
    }
    if jobs != due.len() || jobs == 0 || jobs > 1_000 {
        return Some((13, 0));
    }
    if table / 8 < jobs {
        return Some((10, 0));
    }
    let bad = |number: u32| number.wrapping_sub(1) >= 1_000_000;
    let job = (0..jobs).find(|&job| bad(work[job]) || bad(due[job]))?;
    Some((14, job as u32 + 1))
}

/// A day in range: the planner against the flow, its rows against both
/// checkers and the row bound, its order file and its plan file read back.
fn judge_day(tally: &mut Tally, boards: u32, work: &[u32], due: &[u32], small: bool) -> Planned {
    tally.days += 1;
    let mut table = vec![77; 8 * work.len() + 3];
    let planned = plan(boards, work, due, &mut table);
    let describe = |what: &str| format!("{what}: {boards} {work:?} {due:?}: {planned:?}");
    tally.expect(flow_agrees(boards, work, due, &planned, small), || describe("flow"));
    let used = 4 * planned.rows as usize;
    tally.expect(table[used..].iter().all(|&n| n == 0), || describe("zeros behind the rows"));
    if planned.refusal == 0 {
        let good = rows_good(boards, work, due, &table[..used], small);
        tally.planned += 1;
        tally.expect(good, || describe("rows"));
        judge_table_as_file(tally, &table[..used]);
    }
    judge_day_as_order(tally, boards, work, due);
    planned
}

/// Accepted: a plan exists. Refused: the job named is the first in due order
/// up to which none exists.
fn flow_agrees(boards: u32, work: &[u32], due: &[u32], planned: &Planned, small: bool) -> bool {
    let order = due_order(due);
    let named = order.iter().position(|&job| job as u32 + 1 == planned.place);
    let exists = |count: usize| plan_exists(boards, work, due, &order[..count]);
    match (planned.refusal, named) {
        (0, None) => exists(order.len()),
        (9, Some(at)) if small => first_misfit(boards, work, due, &order) == Some(at),
        (9, Some(at)) => exists(at) && !exists(at + 1),
        _ => false,
    }
}

/// The planner's own rows: a plan, and within the row bound.
fn rows_good(boards: u32, work: &[u32], due: &[u32], table: &[u32], small: bool) -> bool {
    let rows = table.len() / 4;
    let preemptions = rows.saturating_sub(work.len()) as u32;
    let yes = Checked { refusal: 0, place: 0, yes: 1, preemptions };
    check(boards, work, due, table, rows) == yes
        && (!small || check_by_minutes(boards, work, due, table, rows) == yes)
        && rows_frugal(boards, due, table)
}

/// At most n + min(n - 2, k * (m - 1)) rows (n if that is less), two for a
/// job, one for the first and for the last job in due order.
fn rows_frugal(boards: u32, due: &[u32], table: &[u32]) -> bool {
    let jobs = due.len();
    let mut distinct = due.to_vec();
    distinct.sort_unstable();
    distinct.dedup();
    let moves = jobs.saturating_sub(2).min(distinct.len() * (boards as usize - 1));
    let mut rows_of = vec![0; jobs];
    table.chunks_exact(4).for_each(|row| rows_of[row[1] as usize - 1] += 1);
    let order = due_order(due);
    table.len() / 4 <= jobs + moves
        && rows_of.iter().all(|&rows| rows <= 2)
        && rows_of[order[0]] == 1
        && rows_of[order[jobs - 1]] == 1
}

fn judge_table_as_file(tally: &mut Tally, table: &[u32]) {
    let (count, note) = (table.len() / 4, 5);
    let buffer = vec![170; note + 12 * count + 9];
    judge_writer(tally, WriterCall { table: table.to_vec(), count, buffer, note });
}

fn judge_day_as_order(tally: &mut Tally, boards: u32, work: &[u32], due: &[u32]) {
    let file = inputs::order_of_day(boards, work, due);
    if file.len() > MOST_BYTES {
        return;
    }
    let (read, works, dues) = read_lists(&file);
    let jobs = work.len() as u32;
    let same = read == OrderRead { refusal: 0, place: 0, boards, jobs };
    tally.expect(same && works == work && dues == due, || format!("day as order {read:?}"));
}

// ---------------------------------------------------------------- tables

/// Changed tables: the checker against every pair of rows, and on days that
/// end early against the minutes.
fn judge_tables(
    tally: &mut Tally,
    rng: &mut Rng,
    boards: u32,
    work: &[u32],
    due: &[u32],
    count: usize,
) {
    let early = due.iter().all(|&minute| minute <= 100);
    for _ in 0..count {
        tally.tables += 1;
        let (table, rows) = inputs::table(rng, boards, work, due);
        let checked = check(boards, work, due, &table, rows);
        let by_minutes = !early || check_by_minutes(boards, work, due, &table, rows) == checked;
        let by_pairs = checked == checked_by_pairs(boards, work, due, &table, rows);
        tally.expect(by_minutes && by_pairs, || {
            format!("table {table:?} {rows}: {boards} {work:?} {due:?} {checked:?}")
        });
    }
}

/// The checker's whole answer once more, refusals and all.
fn checked_by_pairs(boards: u32, work: &[u32], due: &[u32], table: &[u32], rows: usize) -> Checked {
    let refused = |refusal, place| Checked { refusal, place, yes: 0, preemptions: 0 };
    // 14 is the last refusal of both; a table of 8,000 passes the planner's 10.
    match refusal_of_day(boards, work, due, 8_000) {
        Some((14, _)) | None if rows > 2_000 || table.len() / 4 < rows => refused(13, 0),
        Some((refusal, place)) => refused(refusal, place),
        None => {
            let list: Vec<&[u32]> = table.chunks_exact(4).take(rows).collect();
            let yes = plan_by_pairs(boards, work, due, &list);
            let preemptions = if yes { rows - work.len() } else { 0 };
            let preemptions = preemptions as u32;
            Checked { refusal: 0, place: 0, yes: u32::from(yes), preemptions }
        }
    }
}

/// The definition of a plan as it is written, every pair of rows looked at.
fn plan_by_pairs(boards: u32, work: &[u32], due: &[u32], rows: &[&[u32]]) -> bool {
    let jobs = work.len() as u32;
    let good = |r: &[u32]| {
        r[0] >= 1
            && r[0] <= boards
            && r[1] >= 1
            && r[1] <= jobs
            && r[2] < r[3]
            && r[3] <= due[r[1] as usize - 1]
    };
    let clash = |r: &[u32], s: &[u32]| (r[0] == s[0] || r[1] == s[1]) && r[2] < s[3] && s[2] < r[3];
    if !rows.iter().all(|r| good(r)) {
        return false;
    }
    let mut left: Vec<i64> = work.iter().map(|&t| i64::from(t)).collect();
    for (i, r) in rows.iter().enumerate() {
        if rows[..i].iter().any(|s| clash(r, s)) {
            return false;
        }
        left[r[1] as usize - 1] -= i64::from(r[3] - r[2]);
    }
    left.iter().all(|&minutes| minutes == 0)
}

// ----------------------------------------------------------- order files

fn order_files(tally: &mut Tally, count: usize) {
    let mut rng = Rng::new(4);
    for i in 0..count {
        let file = match i % 20 {
            0..=3 => inputs::good_order(&mut rng),
            4 => inputs::jobless_order(&mut rng),
            _ => inputs::damaged_order(&mut rng),
        };
        let read = judge_order(tally, &file);
        let as_made = match i % 20 {
            0..=3 => read.refusal == 0,
            4 => read.refusal == 8,
            _ => true,
        };
        tally.expect(as_made, || format!("made to be otherwise: {read:?} {}", show(&file)));
    }
    for _ in 0..8 {
        let flood = inputs::bracket_flood(&mut rng);
        judge_order(tally, &flood);
    }
}

/// The answer for a file, and its lists cut to the jobs.
fn read_lists(file: &[u8]) -> (OrderRead, Vec<u32>, Vec<u32>) {
    let (mut work, mut due) = ([0; MOST_JOBS], [0; MOST_JOBS]);
    let read = read_order(file, &mut work, &mut due);
    let jobs = read.jobs as usize;
    (read, work[..jobs].to_vec(), due[..jobs].to_vec())
}

/// Behind the jobs both buffers hold zeros; after 11 they are as they were.
fn buffer_rest_good(file: &[u8]) -> bool {
    let (mut work, mut due) = ([77; MOST_JOBS + 1], [77; MOST_JOBS + 9]);
    let read = read_order(file, &mut work, &mut due);
    let jobs = read.jobs as usize;
    let rest = if read.refusal == 11 { 77 } else { 0 };
    work[jobs..].iter().chain(&due[jobs..]).all(|&number| number == rest)
}

/// What must hold of the reader's answer, whatever the file.
fn judge_order(tally: &mut Tally, file: &[u8]) -> OrderRead {
    tally.orders += 1;
    let (read, work, due) = read_lists(file);
    let good = match read.refusal {
        0 => accepted_good(file, &read, &work, &due),
        1 | 2 | 4..=7 => fault_good(file, &read),
        3 => is_start_of_order(file) && read.place as usize == file.len(),
        8 => word_count(file, b"job") == 0 && read.place as usize == file.len(),
        11 => read.place == 0 && file.len() > MOST_BYTES,
        _ => false,
    };
    tally.accepted += usize::from(read.refusal == 0);
    tally.expect(good, || format!("order {read:?}: {}", show(file)));
    tally.expect(buffer_rest_good(file), || format!("buffers {read:?}: {}", show(file)));
    tally.expect(listing_good(file, &read), || format!("listing {read:?}: {}", show(file)));
    read
}

fn show(file: &[u8]) -> String {
    String::from_utf8_lossy(&file[..file.len().min(300)]).into_owned()
}

fn atom_end(file: &[u8], place: usize) -> usize {
    let in_atom = |byte: &u8| matches!(byte, b'a'..=b'z' | b'0'..=b'9');
    place + file[place..].iter().take_while(|byte| in_atom(byte)).count()
}

/// Brackets and atoms of a file, without blanks and bytes of other kinds.
fn tokens(file: &[u8]) -> Vec<&[u8]> {
    let mut list = Vec::new();
    let mut at = 0;
    while at < file.len() {
        let end = atom_end(file, at).max(at + 1);
        if !matches!(file[at], b' ' | b'\n') {
            list.push(&file[at..end]);
        }
        at = end;
    }
    list
}

fn word_count(file: &[u8], word: &[u8]) -> usize {
    tokens(file).into_iter().filter(|token| *token == word).count()
}

/// Opening less closing brackets.
fn open_brackets(file: &[u8]) -> i64 {
    let count = |bracket| file.iter().filter(|&&byte| byte == bracket).count() as i64;
    count(b'(') - count(b')')
}

/// An accepted file by a flat walk over its tokens with a list of the due
/// minutes of open groups; then its flat order must give the same lists.
fn accepted_good(file: &[u8], read: &OrderRead, work: &[u32], due: &[u32]) -> bool {
    let list = tokens(file);
    let number = |i: usize| list.get(i).map(|digits| digits_value(digits));
    let mut open: Vec<u32> = Vec::new();
    let (mut works, mut dues) = (Vec::new(), Vec::new());
    for (i, token) in list.iter().enumerate() {
        let after = |by: usize| number(i + by).unwrap_or(0);
        match *token {
            b"order" => open.push(MOST_MINUTES),
            b"group" => open.push(after(1)),
            b"job" => {
                works.push(after(1));
                dues.push(open.iter().copied().fold(after(2), u32::min));
                open.push(MOST_MINUTES);
            }
            b")" => drop(open.pop()),
            _ => {}
        }
    }
    let flat = inputs::order_of_day(read.boards, work, due);
    number(2) == Some(read.boards)
        && open.is_empty()
        && works == work
        && dues == due
        && read_lists(&flat) == (*read, works, dues)
}

/// A refusal with a place inside the file: what stands there is at fault,
/// what stands before it is not, what comes behind does not matter.
fn fault_good(file: &[u8], read: &OrderRead) -> bool {
    let place = read.place as usize;
    if place >= file.len() {
        return false;
    }
    let end = atom_end(file, place).max(place + 1);
    let before = read_lists(&file[..place]).0;
    let innocent = match before.refusal {
        0 | 8 => true,
        3 => before.place as usize == place,
        _ => false,
    };
    let behind: &[u8] = b" (order%) zz 0";
    let tail = read_lists(&[&file[..end], behind].concat()).0;
    // Close to the greatest length the tail itself makes the file too long.
    let tail_same = tail == *read || end + behind.len() > MOST_BYTES;
    innocent && tail_same && token_at_fault(file, &file[place..end], read)
}

/// Whether the token is of the kind its refusal speaks of. What stands before
/// it is well-formed, so few tokens back tell what is wanted.
fn token_at_fault(file: &[u8], token: &[u8], read: &OrderRead) -> bool {
    let front = &file[..read.place as usize];
    let before = tokens(front);
    let all = |kind: fn(&u8) -> bool| token.iter().all(kind);
    let bracket = matches!(token, b"(" | b")");
    let atom = all(|byte| byte.is_ascii_lowercase() || byte.is_ascii_digit());
    let number = all(u8::is_ascii_digit) && token.len() <= 7 && token[0] != b'0';
    let wanted = number_wanted(&before);
    match read.refusal {
        1 => !atom && !bracket && !matches!(token, b" " | b"\n"),
        2 => bracket || (atom && !wanted),
        4 => wanted && atom && !number,
        5 => {
            wanted && number && digits_value(token) > if before.len() == 2 { 64 } else { 1_000_000 }
        }
        6 => token == b"group" && open_brackets(front) == 34,
        7 => token == b"job" && word_count(front, b"job") == MOST_JOBS,
        _ => false,
    }
}

fn number_wanted(before: &[&[u8]]) -> bool {
    matches!(before, [.., b"order" | b"group" | b"job"] | [.., b"job", _])
}

/// The value of up to 7 digits; anything for what is no such number.
fn digits_value(digits: &[u8]) -> u32 {
    let digit = |&byte: &u8| u32::from(byte.saturating_sub(b'0'));
    digits
        .iter()
        .map(digit)
        .fold(0, |value: u32, more| value.saturating_mul(10).saturating_add(more))
}

/// Some ending out of a few makes a well-formed order of it, or one that is
/// only too deep or too great.
fn is_start_of_order(file: &[u8]) -> bool {
    let endings = ["", "1", "1 1", "group 1", "job 1 1", "order 1", "(order 1"];
    endings.into_iter().any(|ending| {
        let mut whole = [file, b" ", ending.as_bytes()].concat();
        let brackets = open_brackets(&whole).max(0) as usize;
        whole.resize(whole.len() + brackets, b')');
        let refusal = read_lists(&whole).0.refusal;
        matches!(refusal, 0 | 6 | 7 | 8) || whole.len() > MOST_BYTES
    })
}

/// The listing says what the reader says, and a plan's rows are one.
fn listing_good(file: &[u8], read: &OrderRead) -> bool {
    let text = String::from_utf8_lossy(&listing(file)).into_owned();
    if read.refusal != 0 {
        return text == format!("refused {} {}\n", read.refusal, read.place);
    }
    let (_, work, due) = read_lists(file);
    let lines: Vec<&str> = text.lines().collect();
    let numbers = |line: &str| -> Vec<u32> {
        line.split(' ').filter_map(|field| field.parse().ok()).collect()
    };
    if !text.ends_with('\n') || text.contains("  ") {
        return false;
    }
    if lines[0].starts_with("refused 9 ") {
        let job = numbers(lines[0])[1];
        return lines.len() == 1 && (1..=read.jobs).contains(&job);
    }
    let table: Vec<u32> = lines[1..].iter().flat_map(|line| numbers(line)).collect();
    let rows = lines.len() - 1;
    let checked = check(read.boards, &work, &due, &table, rows);
    let head = [read.boards, read.jobs, rows as u32, checked.preemptions];
    lines[0].starts_with("plan ") && numbers(lines[0]) == head && checked.yes == 1
}

// ------------------------------------------------------------ plan files

fn plan_files(tally: &mut Tally, count: usize) {
    let mut rng = Rng::new(5);
    for file in inputs::short_plan_files().into_iter().chain(inputs::long_plan_files()) {
        judge_plan_file(tally, &file);
    }
    for _ in 0..count {
        let good = inputs::plan_file(&mut rng);
        let read = judge_plan_file(tally, &good);
        tally.expect(read.refusal == 0, || format!("plan file {good:?}"));
        judge_plan_file(tally, &inputs::damaged_plan_file(&mut rng));
    }
}

/// The trailer's rule counted once more, in wide numbers; then each row.
fn judge_plan_file(tally: &mut Tally, file: &[u8]) -> PlanRead {
    tally.plan_files += 1;
    let read = read_plan_file(file);
    let refused = |refusal| PlanRead { refusal, place: 0, offset: 0, length: 0 };
    let expected = match trailer(file) {
        _ if file.len() > 65_536 => refused(11),
        Some((offset, count)) if count <= 2_000 && offset + 12 * count + 8 == file.len() as u64 => {
            let (offset, length) = (offset as usize, 12 * count as usize);
            PlanRead { refusal: 0, place: 0, offset, length }
        }
        _ => refused(15),
    };
    let part = &file[read.offset..][..read.length];
    let rows_good = (0..read.length / 12).all(|i| decode_row(part, i) == row_by_bytes(part, i));
    let none = [read.length / 12, usize::MAX, usize::MAX / 12 + 1].map(|i| decode_row(part, i));
    let good = read == expected && rows_good && none == [[0; 4]; 3];
    tally.expect(good, || format!("plan file {read:?} for {expected:?}: {} bytes", file.len()));
    read
}

fn wide(bytes: &[u8]) -> u64 {
    bytes.iter().rev().fold(0, |value, &byte| 256 * value + u64::from(byte))
}

fn trailer(file: &[u8]) -> Option<(u64, u64)> {
    let last = file.len().checked_sub(8)?;
    Some((wide(&file[last..last + 4]), wide(&file[last + 4..])))
}

fn row_by_bytes(part: &[u8], i: usize) -> Row {
    let field = |from: usize, to: usize| wide(&part[12 * i + from..12 * i + to]) as u32;
    [field(0, 2), field(2, 4), field(4, 8), field(8, 12)]
}

fn writer_calls(tally: &mut Tally, count: usize) {
    let mut rng = Rng::new(6);
    inputs::long_writer_calls().into_iter().for_each(|call| judge_writer(tally, call));
    (0..count).for_each(|_| judge_writer(tally, inputs::writer_call(&mut rng)));
}

/// Refusal or file: note kept, rows read back, nothing else touched.
fn judge_writer(tally: &mut Tally, call: WriterCall) {
    tally.plan_files += 1;
    let WriterCall { table, count, buffer, note } = call;
    let mut after = buffer.clone();
    let written = write_plan_file(&table, count, &mut after, note);
    let refusal = writer_refusal(&table, count, buffer.len(), note);
    let good = match refusal {
        Some((refusal, place)) => {
            written == PlanWritten { refusal, place, length: 0 } && after == buffer
        }
        None => {
            let length = note + 12 * count + 8;
            written == PlanWritten { refusal: 0, place: 0, length }
                && after[..note] == buffer[..note]
                && after[length..] == buffer[length..]
                && reads_back(&after[..length], &table, count, note)
        }
    };
    tally.expect(good, || format!("writer {written:?} for {refusal:?}: {count} {note}"));
}

/// The writer's refusals once more, in numbers too wide to wrap.
fn writer_refusal(table: &[u32], count: usize, buffer: usize, note: usize) -> Option<(u32, u32)> {
    let (wide_count, length) = (count as u128, 12 * count as u128 + note as u128 + 8);
    if 4 * wide_count > table.len() as u128 {
        return Some((13, 0));
    }
    if wide_count > 2_000 || length > 65_536 {
        return Some((11, 0));
    }
    let high = (0..count).find(|&i| table[4 * i] >> 16 != 0 || table[4 * i + 1] >> 16 != 0);
    if let Some(i) = high {
        return Some((14, i as u32 + 1));
    }
    (length > buffer as u128).then_some((10, 0))
}

fn reads_back(file: &[u8], table: &[u32], count: usize, note: usize) -> bool {
    let read = read_plan_file(file);
    let rows: Vec<u32> =
        (0..count).flat_map(|i| decode_row(&file[read.offset..][..read.length], i)).collect();
    read == PlanRead { refusal: 0, place: 0, offset: note, length: 12 * count }
        && rows == table[..4 * count]
}
