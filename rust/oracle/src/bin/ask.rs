//! Answers requests from standard input; the grammar stands in the README.

use std::io::{self, BufRead, BufWriter, Write};
use std::process::ExitCode;

use oracle::asking::Asked;

fn main() -> io::Result<ExitCode> {
    if !oracle::AT_HAND {
        println!("{}", oracle::NOT_AT_HAND);
        return Ok(ExitCode::SUCCESS);
    }
    let mut asked = Asked::default();
    let mut out = BufWriter::new(io::stdout().lock());
    let mut status = ExitCode::SUCCESS;
    for line in io::stdin().lock().lines() {
        match asked.answer(&line?) {
            Ok(answer) => out.write_all(answer.as_bytes())?,
            Err(why) => {
                writeln!(out, "? {why}")?;
                status = ExitCode::FAILURE;
            }
        }
        // A caller may wait for each answer before it asks again.
        out.flush()?;
    }
    Ok(status)
}
