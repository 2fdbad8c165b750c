//! What `planlist` prints for an order.

use super::order::{read_order, MOST_JOBS};
use super::plan::plan;

/// The listing of a plan, or the one line of a refusal.
pub fn listing(file: &[u8]) -> Vec<u8> {
    let (mut work, mut due) = (vec![0; MOST_JOBS], vec![0; MOST_JOBS]);
    let order = read_order(file, &mut work, &mut due);
    if order.refusal != 0 {
        return refusal_line(order.refusal, order.place);
    }
    let jobs = order.jobs as usize;
    let mut table = vec![0; 8 * jobs];
    let planned = plan(order.boards, &work[..jobs], &due[..jobs], &mut table);
    if planned.refusal != 0 {
        return refusal_line(planned.refusal, planned.place);
    }
    plan_lines(order.boards, order.jobs, planned.rows, &table)
}

fn refusal_line(refusal: u32, place: u32) -> Vec<u8> {
    format!("refused {refusal} {place}\n").into_bytes()
}

fn plan_lines(boards: u32, jobs: u32, rows: u32, table: &[u32]) -> Vec<u8> {
    // A preemption is a row more than one for a job.
    let mut text = format!("plan {boards} {jobs} {rows} {}\n", rows - jobs);
    for row in table.chunks_exact(4).take(rows as usize) {
        text += &format!("{} {} {} {}\n", row[0], row[1], row[2], row[3]);
    }
    text.into_bytes()
}
