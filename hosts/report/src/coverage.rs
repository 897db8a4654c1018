//! Counts of each refusal by operation.

use crate::{listed, say};
use std::collections::{BTreeMap, BTreeSet};

/// The refusals are 1 to 40.
const NUMBERS: usize = 41;

/// Answers counted by operation; column 0 is acceptance.
#[derive(Default)]
pub struct Coverage(BTreeMap<&'static str, [u64; NUMBERS]>);

impl Coverage {
    /// An answer of an operation: the refusal's number, or 0.
    pub fn count(&mut self, operation: &'static str, number: u32) {
        self.0.entry(operation).or_insert([0; NUMBERS])[number as usize] += 1;
    }

    /// One line an operation: how often each refusal came about.
    pub fn print(&self) {
        for (operation, row) in &self.0 {
            let mut line = format!("operation {operation}: accepted {}", row[0]);
            for (number, count) in row.iter().enumerate().skip(1) {
                if *count > 0 {
                    line.push_str(&format!("  {number}:{count}"));
                }
            }
            say(&line);
        }
    }

    /// Just these operations answered.
    pub fn assert_answered<'a>(&self, operations: impl IntoIterator<Item = &'a str>) {
        let wanted: BTreeSet<&str> = operations.into_iter().collect();
        let answered: BTreeSet<&str> = self.0.keys().copied().collect();
        assert!(!wanted.is_empty(), "no operation is named");
        assert_eq!(answered, wanted, "the operations that answered");
    }

    /// Just these operations answered; each accepted something, gave each
    /// refusal it lists, and gave no other.
    pub fn assert_complete<'a>(&self, operations: impl IntoIterator<Item = &'a str>) {
        self.assert_answered(operations);
        for (operation, row) in &self.0 {
            let listed = listed(operation);
            for (number, &count) in row.iter().enumerate() {
                let wanted = number == 0 || listed.contains(&(number as u32));
                assert_eq!(
                    wanted,
                    count > 0,
                    "{operation}: {number} came about {count} times"
                );
            }
        }
    }
}
