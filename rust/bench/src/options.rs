//! What the program is told.

use std::time::Duration;

pub const USAGE: &str = "bench [--rounds N] [--only NAME] [--quick]

  --rounds N    how many rounds a row is measured for (401); a row that takes long gets fewer
  --only NAME   only the rows whose name has NAME in it
  --quick       51 rounds, for a first look";

/// The fewest rounds of a row, however long it takes.
pub const FEWEST: usize = 5;

/// The shortest time that a sample is taken over: a thousand times what it takes to read the clock, and so short that the system seldom
/// gives the processor to someone else within it.
pub const SAMPLE: Duration = Duration::from_micros(250);

pub struct Options {
    pub rounds: usize,
    pub only: String,
    /// The time after which a row gets no further rounds.
    pub row: Duration,
}

impl Options {
    /// The options in these words, or what is wrong with them.
    pub fn read(mut words: impl Iterator<Item = String>) -> Result<Options, String> {
        let mut rounds = None;
        let mut only = String::new();
        let mut quick = false;
        while let Some(word) = words.next() {
            match word.as_str() {
                "--rounds" => {
                    let told = words.next().ok_or("--rounds needs a number")?;
                    let number = told.parse().ok().filter(|&number| number >= FEWEST);
                    rounds = Some(number.ok_or_else(|| {
                        format!("--rounds needs a number of at least {FEWEST}, not {told:?}")
                    })?);
                }
                "--only" => only = words.next().ok_or("--only needs a name")?,
                "--quick" => quick = true,
                _ => return Err(format!("{word:?} is no option")),
            }
        }
        let (usual, row) = if quick { (51, 1) } else { (401, 4) };
        Ok(Options {
            rounds: rounds.unwrap_or(usual),
            only,
            row: Duration::from_secs(row),
        })
    }
}

#[cfg(test)]
mod tests {
    use super::*;

    fn read(line: &str) -> Result<Options, String> {
        Options::read(line.split_whitespace().map(str::to_string))
    }

    #[test]
    fn options_are_read() {
        let options = read("--only build --rounds 7 --quick").unwrap();
        assert_eq!((options.rounds, options.only.as_str()), (7, "build"));
        assert_eq!(read("").unwrap().rounds, 401);
        assert_eq!(read("--quick").unwrap().rounds, 51);
    }

    #[test]
    fn bad_options_are_refused() {
        for line in ["--rounds", "--rounds 4", "--rounds x", "--only", "--fast"] {
            assert!(read(line).is_err(), "{line}");
        }
    }
}
