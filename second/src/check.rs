//! The checker: rows sorted into spans, neighbours compared. A second judge
//! goes minute by minute and is only meant for short days.

use super::plan::{boards_bad, first_bad_job, lists_unfit, Row};

pub const MOST_ROWS: usize = 2_000;

#[derive(Clone, Copy, Debug, PartialEq, Eq)]
pub struct Checked {
    pub refusal: u32,
    pub place: u32,
    pub yes: u32,
    pub preemptions: u32,
}

/// Says whether the first `rows` rows of the table are a plan.
pub fn check(boards: u32, work: &[u32], due: &[u32], table: &[u32], rows: usize) -> Checked {
    check_with(boards, work, due, table, rows, plan_by_spans)
}

/// The same answer found minute by minute: slow for late due minutes.
pub fn check_by_minutes(
    boards: u32,
    work: &[u32],
    due: &[u32],
    table: &[u32],
    rows: usize,
) -> Checked {
    check_with(boards, work, due, table, rows, plan_by_minutes)
}

/// A day that passed the refusals.
struct Day<'a> {
    boards: u32,
    work: &'a [u32],
    due: &'a [u32],
}

type Judge = fn(&Day, &[Row]) -> bool;

fn check_with(
    boards: u32,
    work: &[u32],
    due: &[u32],
    table: &[u32],
    rows: usize,
    judge: Judge,
) -> Checked {
    if boards_bad(boards) {
        return refused(12, 0);
    }
    // Over 2,000 rows is looked at first: then four times the rows cannot wrap.
    if lists_unfit(work, due) || rows > MOST_ROWS || table.len() < 4 * rows {
        return refused(13, 0);
    }
    if let Some(job) = first_bad_job(work, due) {
        return refused(14, job);
    }
    let list: Vec<Row> = table.chunks_exact(4).take(rows).map(to_row).collect();
    if !judge(&Day { boards, work, due }, &list) {
        return Checked { refusal: 0, place: 0, yes: 0, preemptions: 0 };
    }
    // Every job has work, hence a row: the difference is never below 0.
    let preemptions = rows.saturating_sub(work.len()) as u32;
    Checked { refusal: 0, place: 0, yes: 1, preemptions }
}

fn refused(refusal: u32, place: u32) -> Checked {
    Checked { refusal, place, yes: 0, preemptions: 0 }
}

fn to_row(four: &[u32]) -> Row {
    [four[0], four[1], four[2], four[3]]
}

/// The numbers of one row by themselves: board, job, from < to <= due.
fn row_good(day: &Day, row: &Row) -> bool {
    let [board, job, from, to] = *row;
    let jobs = day.work.len() as u32;
    (1..=day.boards).contains(&board)
        && (1..=jobs).contains(&job)
        && from < to
        && to <= day.due[job as usize - 1]
}

fn plan_by_spans(day: &Day, rows: &[Row]) -> bool {
    rows.iter().all(|row| row_good(day, row))
        && apart(rows, |row| row[0])
        && apart(rows, |row| row[1])
        && work_done(day, rows)
}

/// No two rows with the same key overlap. Sorted by key and start, every span
/// has to end before its right neighbour starts; touching is no overlap.
fn apart(rows: &[Row], key: fn(&Row) -> u32) -> bool {
    let mut spans: Vec<(u32, u32, u32)> =
        rows.iter().map(|row| (key(row), row[2], row[3])).collect();
    spans.sort_unstable();
    spans.windows(2).all(|pair| pair[0].0 != pair[1].0 || pair[0].2 <= pair[1].1)
}

fn work_done(day: &Day, rows: &[Row]) -> bool {
    let mut done = vec![0u64; day.work.len()];
    for row in rows {
        done[row[1] as usize - 1] += u64::from(row[3] - row[2]);
    }
    done.iter().zip(day.work).all(|(&got, &work)| got == u64::from(work))
}

fn plan_by_minutes(day: &Day, rows: &[Row]) -> bool {
    if !rows.iter().all(|row| row_good(day, row)) {
        return false;
    }
    let latest = day.due.iter().copied().max().unwrap_or(0);
    let mut left = day.work.to_vec();
    (0..latest).all(|minute| minute_good(minute, rows, &mut left)) && left.iter().all(|&w| w == 0)
}

/// One minute: no board and no job in two rows, and each job that runs still
/// has work, which is taken off.
fn minute_good(minute: u32, rows: &[Row], left: &mut [u32]) -> bool {
    let (mut boards, mut jobs) = (Vec::new(), Vec::new());
    for &[board, job, from, to] in rows {
        if !(from..to).contains(&minute) {
            continue;
        }
        let work = &mut left[job as usize - 1];
        if boards.contains(&board) || jobs.contains(&job) || *work == 0 {
            return false;
        }
        *work -= 1;
        boards.push(board);
        jobs.push(job);
    }
    true
}
