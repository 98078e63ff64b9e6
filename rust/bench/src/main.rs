//! The library's time over the original's, on the same inputs and in the same run.
//!
//! Each row first holds the answers of both against each other, bit for bit; a difference ends the program. Then both are measured
//! in turn. The ratio is the median of the rounds' ratios, and the two numbers beside it are their 10th and 90th percentile; the
//! times are medians. A build with a column is held against the library's own build without one, in the place of the original, and a
//! build by months against the library's own over ready knots.
//! docs/PERFORMANCE.md says what is measured and how to read it.

mod cases;
mod clock;
mod kinds;
mod options;
mod ours;
mod report;
mod same;
mod statistics;
mod tables;
mod turns;

use std::process::ExitCode;

use options::{Options, USAGE};
use report::Report;

/// What the Rust of this program was compiled for, beyond what every processor of this kind has.
fn compiled_for() -> String {
    let mut beyond = Vec::new();
    for (has, name) in [
        (cfg!(target_feature = "avx"), "avx"),
        (cfg!(target_feature = "avx2"), "avx2"),
        (cfg!(target_feature = "fma"), "fma"),
        (cfg!(target_feature = "avx512f"), "avx512f"),
        (cfg!(target_feature = "sve"), "sve"),
    ] {
        if has {
            beyond.push(name);
        }
    }
    if beyond.is_empty() {
        "any processor of its kind".to_string()
    } else {
        format!("a processor with {}", beyond.join(", "))
    }
}

/// The processor by its name, or, as on Arm, by the numbers of its maker and its kind, where the system tells them.
fn processor() -> String {
    let told = std::fs::read_to_string("/proc/cpuinfo").unwrap_or_default();
    let field = |name: &str| {
        let rest = told.lines().find_map(|line| line.strip_prefix(name))?;
        rest.split(':').nth(1).map(str::trim)
    };
    let name = match (
        field("model name"),
        field("CPU implementer"),
        field("CPU part"),
    ) {
        (Some(name), _, _) => name.to_string(),
        (None, Some(maker), Some(part)) => format!("processor of maker {maker}, part {part}"),
        _ => "processor not named".to_string(),
    };
    format!("{name} ({})", std::env::consts::ARCH)
}

fn main() -> ExitCode {
    let options = match Options::read(std::env::args().skip(1)) {
        Ok(options) => options,
        Err(wrong) => {
            eprintln!("bench: {wrong}\n\n{USAGE}");
            return ExitCode::from(2);
        }
    };
    if cfg!(debug_assertions) {
        eprintln!(
            "bench: this is a build with debug assertions, whose times say nothing; use --release"
        );
        return ExitCode::from(2);
    }
    println!("{}; Rust compiled for {}", processor(), compiled_for());
    if !oracle::AT_HAND {
        println!(
            "{} Until then the library is measured alone.",
            oracle::NOT_AT_HAND
        );
    }
    println!();
    let mut report = Report::new(options);
    cases::build::rows(&mut report);
    cases::column::rows(&mut report);
    cases::months::rows(&mut report);
    cases::query::single(&mut report);
    cases::query::many(&mut report);
    cases::strip::rows(&mut report);
    cases::growth::rows(&mut report);
    cases::root::rows(&mut report);
    if report.close() == 0 {
        eprintln!("bench: no row has that name");
        return ExitCode::from(2);
    }
    ExitCode::SUCCESS
}
