//! Speed as ratios, ours against others in one run:
//! `cargo run --release -p bench -- GROUP..`, all groups where none is named.
//!
//! A command and no test, since a time depends on what else runs.
#![forbid(unsafe_code)]

mod answer;
mod groups;
mod measure;
mod ours;
mod samples;
mod table;
mod theirs;

use std::process::ExitCode;
use table::Table;

fn main() -> ExitCode {
    let wanted: Vec<String> = std::env::args().skip(1).collect();
    let known = |name: &String| groups::GROUPS.iter().any(|group| group.0 == name);
    if !wanted.iter().all(known) {
        eprintln!("the groups are:");
        for (name, what, _) in groups::GROUPS {
            eprintln!("  {name}  {what}");
        }
        return ExitCode::from(2);
    }
    let mut table = Table::begin();
    for (name, _, rows) in groups::GROUPS {
        if wanted.is_empty() || wanted.iter().any(|wanted| wanted == name) {
            rows(&mut table);
        }
    }
    table.end();
    ExitCode::SUCCESS
}
