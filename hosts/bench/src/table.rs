//! The table that is printed, row by row as it is measured: Markdown, as
//! README has it.

use crate::measure::Times;

pub struct Table {
    slower: usize,
    rows: usize,
}

impl Table {
    pub fn begin() -> Table {
        println!(
            "| {:<48} | {:<22} | {:>11} | {:>11} | {:>5} | {:<14} |",
            "what", "against", "ours, ns", "theirs, ns", "ratio", "nine of ten"
        );
        println!("|---|---|---:|---:|---:|---|");
        Table { slower: 0, rows: 0 }
    }

    pub fn row(&mut self, what: &str, against: &str, times: Times) {
        let (ratio, (low, high)) = (times.ratio, times.spread);
        let [ours, theirs] = [times.ours, times.theirs].map(nanoseconds);
        let spread = format!("{low:.2} to {high:.2}");
        println!(
            "| {what:<48} | {against:<22} | {ours:>11} | {theirs:>11} | {ratio:>5.2} | {spread:<14} |"
        );
        self.rows += 1;
        // As printed, so that the last line agrees with the rows.
        self.slower += usize::from((ratio * 100.0).round() < 100.0);
    }

    pub fn end(self) {
        println!(
            "\n{} rows, {} of them below 1.00. Ratio: their time by ours, above 1.00 ours is faster; ns per call; \
             medians of up to 201 rounds, and between which nine of ten rounds lie.",
            self.rows, self.slower
        );
    }
}

/// With a digit behind the point where that matters, and thousands apart.
fn nanoseconds(time: f64) -> String {
    if time < 100.0 {
        return format!("{time:.1}");
    }
    let digits = format!("{time:.0}");
    let mut text = String::new();
    for (at, digit) in digits.chars().enumerate() {
        if at > 0 && (digits.len() - at) % 3 == 0 {
            text.push(',');
        }
        text.push(digit);
    }
    text
}
