//! The plan file: a note, rows of 12 bytes, a trailer of 8, all little-endian.

use super::check::MOST_ROWS;
use super::order::MOST_BYTES;
use super::plan::Row;

const ROW_BYTES: usize = 12;
const TRAILER_BYTES: usize = 8;
const MOST_SHORT: u32 = 65_535;

#[derive(Clone, Copy, Debug, PartialEq, Eq)]
pub struct PlanRead {
    pub refusal: u32,
    pub place: u32,
    pub offset: usize,
    pub length: usize,
}

/// Where the bytes of the rows stand. The rows themselves are not judged. A
/// good file without rows gives the empty part where the rows would start,
/// which is not the file's front: that one comes with a refusal.
pub fn read_plan_file(file: &[u8]) -> PlanRead {
    if file.len() > MOST_BYTES {
        return PlanRead { refusal: 11, place: 0, offset: 0, length: 0 };
    }
    match row_part(file) {
        Some((offset, length)) => PlanRead { refusal: 0, place: 0, offset, length },
        None => PlanRead { refusal: 15, place: 0, offset: 0, length: 0 },
    }
}

/// Offset and length of the rows, if the trailer fits the file.
fn row_part(file: &[u8]) -> Option<(usize, usize)> {
    let body = file.len().checked_sub(TRAILER_BYTES)?;
    let offset = long_at(file, body)? as usize;
    let count = long_at(file, body + 4)? as usize;
    if count > MOST_ROWS {
        return None;
    }
    let length = ROW_BYTES * count;
    // offset + 12 * count + 8 = file length, with nothing that could wrap
    (body.checked_sub(length) == Some(offset)).then_some((offset, length))
}

/// Row `i` of a row part, counted from 0. The scope page is silent about a
/// row that does not lie whole in the part: four zeros here, no row at all.
pub fn decode_row(part: &[u8], i: usize) -> Row {
    row_at(part, i).unwrap_or([0; 4])
}

fn row_at(part: &[u8], i: usize) -> Option<Row> {
    let start = i.checked_mul(ROW_BYTES)?;
    let end = start.checked_add(ROW_BYTES)?;
    let row = part.get(start..end)?;
    Some([short_at(row, 0)?, short_at(row, 2)?, long_at(row, 4)?, long_at(row, 8)?])
}

fn short_at(bytes: &[u8], at: usize) -> Option<u32> {
    let two = bytes.get(at..at.checked_add(2)?)?;
    Some(u32::from(u16::from_le_bytes(two.try_into().ok()?)))
}

fn long_at(bytes: &[u8], at: usize) -> Option<u32> {
    let four = bytes.get(at..at.checked_add(4)?)?;
    Some(u32::from_le_bytes(four.try_into().ok()?))
}

#[derive(Clone, Copy, Debug, PartialEq, Eq)]
pub struct PlanWritten {
    pub refusal: u32,
    pub place: u32,
    pub length: usize,
}

/// Writes rows and trailer behind the note, the buffer's first `note` bytes.
pub fn write_plan_file(table: &[u32], count: usize, buffer: &mut [u8], note: usize) -> PlanWritten {
    match file_bytes(table, count, buffer.len(), note) {
        Err((refusal, place)) => PlanWritten { refusal, place, length: 0 },
        Ok(bytes) => {
            // `file_bytes` has compared note and bytes with the buffer.
            let length = note + bytes.len();
            buffer[note..length].copy_from_slice(&bytes);
            PlanWritten { refusal: 0, place: 0, length }
        }
    }
}

/// All that follows the note, or refusal and place.
fn file_bytes(
    table: &[u32],
    count: usize,
    capacity: usize,
    note: usize,
) -> Result<Vec<u8>, (u32, u32)> {
    // The division keeps 4 * count from wrapping.
    if count > table.len() / 4 {
        return Err((13, 0));
    }
    let length = file_length(count, note).ok_or((11, 0))?;
    let rows = || table.chunks_exact(4).take(count);
    if let Some(i) = rows().position(|row| row[0] > MOST_SHORT || row[1] > MOST_SHORT) {
        return Err((14, i as u32 + 1));
    }
    if length > capacity {
        return Err((10, 0));
    }
    let mut bytes = Vec::with_capacity(length - note);
    rows().for_each(|row| push_row(&mut bytes, row));
    bytes.extend((note as u32).to_le_bytes());
    bytes.extend((count as u32).to_le_bytes());
    Ok(bytes)
}

/// The whole file's length, unless that or the count is too great.
fn file_length(count: usize, note: usize) -> Option<usize> {
    if count > MOST_ROWS {
        return None;
    }
    let length = note.checked_add(ROW_BYTES * count + TRAILER_BYTES)?;
    (length <= MOST_BYTES).then_some(length)
}

fn push_row(bytes: &mut Vec<u8>, row: &[u32]) {
    bytes.extend((row[0] as u16).to_le_bytes());
    bytes.extend((row[1] as u16).to_le_bytes());
    bytes.extend(row[2].to_le_bytes());
    bytes.extend(row[3].to_le_bytes());
}
