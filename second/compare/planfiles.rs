//! Plan files: the row part, each row, and the writer's whole later buffer.

use super::inputs::{self, WriterCall};
use super::rng::Rng;
use super::tally::Tally;
use super::{archive, planfile};

pub fn compare(tally: &mut Tally, rounds: usize) {
    let mut rng = Rng::new(7);
    for file in inputs::short_plan_files().iter().chain(&inputs::long_plan_files()) {
        read(tally, file);
    }
    for call in inputs::long_writer_calls() {
        write(tally, &call);
    }
    for _ in 0..rounds * 1_000 {
        read(tally, &inputs::plan_file(&mut rng));
        read(tally, &inputs::damaged_plan_file(&mut rng));
        write(tally, &inputs::writer_call(&mut rng));
    }
}

fn read(tally: &mut Tally, file: &[u8]) {
    tally.count("plan files read");
    let theirs = planfile::read_plan_file(file);
    tally.same("find_rows", archive::find_rows(file), theirs, &file);
    let part = &file[theirs.offset..theirs.offset + theirs.length];
    let rows = theirs.length / 12;
    // The rows, some behind the last, and an index at which 12 x i wraps.
    for i in (0..rows + 2).chain([2_000, 2_001, usize::MAX / 12 + 1, usize::MAX]) {
        tally.same("file_row", archive::file_row(file, i), planfile::decode_row(part, i), &(i, file));
    }
}

fn write(tally: &mut Tally, call: &WriterCall) {
    tally.count("plan files written");
    let (mut ours, mut theirs) = (call.buffer.clone(), call.buffer.clone());
    let answer = archive::write_plan(&call.table, call.count, &mut ours, call.note);
    let expected = planfile::write_plan_file(&call.table, call.count, &mut theirs, call.note);
    let input = (&call.table, call.count, call.note);
    tally.same("write_plan", answer, expected, &input);
    tally.same("write_plan's buffer", ours, theirs, &input);
}
