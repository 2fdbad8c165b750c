//! The planner: jobs in due order by the library's stable sort, boards chosen
//! by asking for the least or the greatest room.

use super::order::{MOST_BOARDS, MOST_JOBS, MOST_MINUTES};

/// Board, job, from, to.
pub type Row = [u32; 4];

#[derive(Clone, Copy, Debug, PartialEq, Eq)]
pub struct Planned {
    pub refusal: u32,
    pub place: u32,
    pub rows: u32,
}

/// Plans a day; the table is filled or left as the scope page says.
pub fn plan(boards: u32, work: &[u32], due: &[u32], table: &mut [u32]) -> Planned {
    if boards_bad(boards) {
        return refused(12, 0);
    }
    if lists_unfit(work, due) {
        return refused(13, 0);
    }
    if table.len() < 8 * work.len() {
        return refused(10, 0);
    }
    if let Some(job) = first_bad_job(work, due) {
        return refused(14, job);
    }
    table.fill(0);
    match place_all(boards, work, due) {
        Err(job) => refused(9, job),
        Ok(rows) => {
            for (slot, row) in table.chunks_exact_mut(4).zip(&rows) {
                slot.copy_from_slice(row);
            }
            Planned { refusal: 0, place: 0, rows: rows.len() as u32 }
        }
    }
}

fn refused(refusal: u32, place: u32) -> Planned {
    Planned { refusal, place, rows: 0 }
}

/// Refusal 12.
pub fn boards_bad(boards: u32) -> bool {
    !(1..=MOST_BOARDS).contains(&boards)
}

/// Refusal 13, the part that planner and checker share.
pub fn lists_unfit(work: &[u32], due: &[u32]) -> bool {
    work.len() != due.len() || work.is_empty() || work.len() > MOST_JOBS
}

/// Refusal 14: the number of the first job with a work or a due minute out of
/// range.
pub fn first_bad_job(work: &[u32], due: &[u32]) -> Option<u32> {
    let range = 1..=MOST_MINUTES;
    let bad = |(t, d): (&u32, &u32)| !range.contains(t) || !range.contains(d);
    let index = work.iter().zip(due).position(bad)?;
    Some(index as u32 + 1)
}

/// The jobs, counted from 0, by due minute and then by job number; the sort
/// is stable, so equal due minutes keep the order of the numbers.
pub fn due_order(due: &[u32]) -> Vec<usize> {
    let mut order: Vec<usize> = (0..due.len()).collect();
    order.sort_by_key(|&job| due[job]);
    order
}

/// The rows as placed, or the number of the job that found no place.
fn place_all(boards: u32, work: &[u32], due: &[u32]) -> Result<Vec<Row>, u32> {
    let mut free = Free(vec![0; boards as usize]);
    let mut rows = Vec::with_capacity(2 * work.len());
    let order = due_order(due);
    for (position, &job) in order.iter().enumerate() {
        let is_last = position + 1 == order.len();
        let number = job as u32 + 1;
        let pieces = free.choose(work[job], due[job], is_last).ok_or(number)?;
        for (board, minutes) in pieces {
            rows.push(free.take(board, number, minutes));
        }
    }
    Ok(rows)
}

/// The minute each board is free from.
struct Free(Vec<u32>);

/// Boards, counted from 0, and the minutes a job gets on each. A job has one
/// or two, and none is of length 0.
type Pieces = Vec<(usize, u32)>;

impl Free {
    fn room(&self, board: usize, due: u32) -> u32 {
        due.saturating_sub(self.0[board])
    }

    /// The board with the least room of those asked for. The library gives
    /// the first of equals, which is the lowest board.
    fn least(&self, due: u32, asked: impl Fn(u32) -> bool) -> Option<usize> {
        (0..self.0.len())
            .filter(|&board| asked(self.room(board, due)))
            .min_by_key(|&board| self.room(board, due))
    }

    /// The board with the greatest room of those asked for. The library gives
    /// the last of equals, so the boards are gone through from the highest.
    fn greatest(&self, due: u32, asked: impl Fn(u32) -> bool) -> Option<usize> {
        (0..self.0.len())
            .rev()
            .filter(|&board| asked(self.room(board, due)))
            .max_by_key(|&board| self.room(board, due))
    }

    /// Steps 1 to 4. Nothing is placed yet; `None` is refusal 9.
    fn choose(&self, work: u32, due: u32, is_last: bool) -> Option<Pieces> {
        let roomiest = self.greatest(due, |_| true)?;
        if work > self.room(roomiest, due) {
            return None; // step 2, and the refusal of step 1
        }
        if is_last {
            return Some(vec![(roomiest, work)]); // step 1
        }
        let tightest = self.least(due, |room| room != 0)?;
        if work <= self.room(tightest, due) {
            return Some(vec![(tightest, work)]); // step 3
        }
        let a = self.greatest(due, |room| room != 0 && room <= work)?;
        Some(self.split(a, work, due)) // step 4
    }

    /// Step 4, board A known.
    fn split(&self, a: usize, work: u32, due: u32) -> Pieces {
        let on_a = self.room(a, due);
        let mut pieces = vec![(a, on_a)];
        if on_a < work {
            // Some room is at least the work, none not above it is greater
            // than A's: so a room above the work exists.
            let b = self.least(due, |room| room > work);
            pieces.extend(b.map(|board| (board, work - on_a)));
        }
        pieces
    }

    /// Gives a board to a job for some minutes from where it is free.
    fn take(&mut self, board: usize, job: u32, minutes: u32) -> Row {
        let from = self.0[board];
        self.0[board] = from + minutes;
        [board as u32 + 1, job, from, from + minutes]
    }
}
