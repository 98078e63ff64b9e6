//! Writes the file of answers to standard output, and to standard error how
//! many of each it holds.

use std::io::{self, Write};
use std::process::ExitCode;

use oracle::answers::{self, Answers};

fn main() -> io::Result<ExitCode> {
    if !oracle::AT_HAND {
        eprintln!("{}", oracle::NOT_AT_HAND);
        return Ok(ExitCode::FAILURE);
    }
    let wanted: Vec<String> = std::env::args().skip(1).collect();
    let wanted: Vec<&str> = wanted.iter().map(String::as_str).collect();
    let parts: Vec<Answers> = match wanted[..] {
        [] => vec![
            answers::default(),
            answers::roots(),
            answers::sections(),
            answers::curves(),
            answers::growth(),
        ],
        ["default"] => vec![answers::default()],
        ["roots"] => vec![answers::roots()],
        ["sections"] => vec![answers::sections()],
        ["curves"] => vec![answers::curves()],
        ["growth"] => vec![answers::growth()],
        _ => {
            eprintln!("answers [default | roots | sections | curves | growth]");
            return Ok(ExitCode::FAILURE);
        }
    };
    let mut out = io::stdout().lock();
    let mut size = 0;
    for part in &parts {
        out.write_all(part.lines.as_bytes())?;
        size += part.lines.len();
        for (name, count) in &part.counts {
            eprintln!("{count:6} {name}");
        }
    }
    eprintln!("{size:6} bytes");
    Ok(ExitCode::SUCCESS)
}
