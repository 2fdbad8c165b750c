//! The proved archive, as the C header declares it: the only unsafe lines. A slice is a pointer and a count of elements.

use super::check::Checked;
use super::order::OrderRead;
use super::plan::{Planned, Row};
use super::planfile::{PlanRead, PlanWritten};

#[repr(C)]
#[derive(Clone, Copy)]
struct Three(u32, u32, u32);

#[repr(C)]
#[derive(Clone, Copy)]
struct Four(u32, u32, u32, u32);

extern "C" {
    /// The pair of readers that call each other: in an archive of its own, which never ships.
    fn pair_read_order(
        file: *const u8,
        file_length: usize,
        work: *mut u32,
        work_length: usize,
        due: *mut u32,
        due_length: usize,
    ) -> Four;
    fn tuffbasket_read_order(
        file: *const u8,
        file_length: usize,
        work: *mut u32,
        work_length: usize,
        due: *mut u32,
        due_length: usize,
    ) -> Four;
    fn tuffbasket_plan(
        boards: u32,
        work: *const u32,
        work_length: usize,
        due: *const u32,
        due_length: usize,
        table: *mut u32,
        table_length: usize,
    ) -> Three;
    fn tuffbasket_check(
        boards: u32,
        work: *const u32,
        work_length: usize,
        due: *const u32,
        due_length: usize,
        table: *const u32,
        table_length: usize,
        rows: usize,
    ) -> Four;
    fn tuffbasket_find_rows(file: *const u8, length: usize) -> Four;
    fn tuffbasket_file_row(file: *const u8, length: usize, i: usize) -> Four;
    fn tuffbasket_write_plan(
        table: *const u32,
        table_length: usize,
        count: usize,
        buffer: *mut u8,
        buffer_length: usize,
        note: usize,
    ) -> Three;
}

pub fn read_order(file: &[u8], work: &mut [u32], due: &mut [u32]) -> OrderRead {
    let (work_at, work_length) = (work.as_mut_ptr(), work.len());
    let (due_at, due_length) = (due.as_mut_ptr(), due.len());
    let Four(refusal, place, boards, jobs) = unsafe {
        tuffbasket_read_order(file.as_ptr(), file.len(), work_at, work_length, due_at, due_length)
    };
    OrderRead { refusal, place, boards, jobs }
}

pub fn pair_order(file: &[u8], work: &mut [u32], due: &mut [u32]) -> OrderRead {
    let (work_at, work_length) = (work.as_mut_ptr(), work.len());
    let (due_at, due_length) = (due.as_mut_ptr(), due.len());
    let Four(refusal, place, boards, jobs) = unsafe {
        pair_read_order(file.as_ptr(), file.len(), work_at, work_length, due_at, due_length)
    };
    OrderRead { refusal, place, boards, jobs }
}

pub fn plan(boards: u32, work: &[u32], due: &[u32], table: &mut [u32]) -> Planned {
    let (table_at, table_length) = (table.as_mut_ptr(), table.len());
    let Three(refusal, place, rows) = unsafe {
        tuffbasket_plan(
            boards,
            work.as_ptr(),
            work.len(),
            due.as_ptr(),
            due.len(),
            table_at,
            table_length,
        )
    };
    Planned { refusal, place, rows }
}

pub fn check(boards: u32, work: &[u32], due: &[u32], table: &[u32], rows: usize) -> Checked {
    let Four(refusal, place, yes, preemptions) = unsafe {
        tuffbasket_check(
            boards,
            work.as_ptr(),
            work.len(),
            due.as_ptr(),
            due.len(),
            table.as_ptr(),
            table.len(),
            rows,
        )
    };
    Checked { refusal, place, yes, preemptions }
}

pub fn find_rows(file: &[u8]) -> PlanRead {
    let Four(refusal, place, offset, length) =
        unsafe { tuffbasket_find_rows(file.as_ptr(), file.len()) };
    PlanRead { refusal, place, offset: offset as usize, length: length as usize }
}

pub fn file_row(file: &[u8], i: usize) -> Row {
    let Four(board, job, from, to) = unsafe { tuffbasket_file_row(file.as_ptr(), file.len(), i) };
    [board, job, from, to]
}

pub fn write_plan(table: &[u32], count: usize, buffer: &mut [u8], note: usize) -> PlanWritten {
    let (buffer_at, buffer_length) = (buffer.as_mut_ptr(), buffer.len());
    let Three(refusal, place, length) = unsafe {
        tuffbasket_write_plan(table.as_ptr(), table.len(), count, buffer_at, buffer_length, note)
    };
    PlanWritten { refusal, place, length: length as usize }
}
