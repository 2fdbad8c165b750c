//! Counts what was compared, by kind, and shows the first differences.

use std::fmt::Debug;

const SHOWN: usize = 10;

pub struct Tally {
    counts: Vec<(&'static str, usize)>,
    differences: usize,
}

impl Tally {
    pub fn new() -> Tally {
        Tally { counts: Vec::new(), differences: 0 }
    }

    pub fn count(&mut self, kind: &'static str) {
        match self.counts.iter_mut().find(|(name, _)| *name == kind) {
            Some((_, count)) => *count += 1,
            None => self.counts.push((kind, 1)),
        }
    }

    /// Ours is the archive's answer, theirs the second program's.
    pub fn same<T: PartialEq + Debug>(&mut self, what: &str, ours: T, theirs: T, input: &dyn Debug) {
        if ours == theirs {
            return;
        }
        self.differences += 1;
        if self.differences <= SHOWN {
            println!("differs: {what}\n  archive {ours:?}\n  second  {theirs:?}\n  input   {input:?}");
        }
    }

    pub fn differences(&self) -> usize {
        self.differences
    }

    pub fn summary(&self) -> String {
        let mut lines = String::new();
        for (kind, count) in &self.counts {
            lines += &format!("compare: {count} {kind}\n");
        }
        lines + &format!("compare: {} differences\n", self.differences)
    }
}
