//! Runs the original on what the documents claim of it, a line to each claim,
//! and fails if a claim does not hold.

mod claim;
mod document;
mod figures;
mod surprises;

use std::process::ExitCode;

use claim::Report;

fn main() -> ExitCode {
    if !oracle::AT_HAND {
        println!("{}", oracle::NOT_AT_HAND);
        return ExitCode::SUCCESS;
    }
    let mut report = Report::default();
    figures::show(&mut report);
    document::show(&mut report);
    surprises::show(&mut report);
    println!(
        "{} claims hold, {} differ",
        report.held(),
        report.differing()
    );
    if report.differing() == 0 {
        ExitCode::SUCCESS
    } else {
        ExitCode::FAILURE
    }
}
