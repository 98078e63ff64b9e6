//! A claim, what was seen, and whether they agree.

use std::fmt::Write;
use std::panic::{self, UnwindSafe};

use oracle::{Settings, words};

/// How many claims held.
#[derive(Default)]
pub struct Report {
    held: usize,
    differing: usize,
}

/// One claim while it is looked at.
pub struct Claim {
    seen: String,
    differs: bool,
}

impl Report {
    pub fn held(&self) -> usize {
        self.held
    }

    pub fn differing(&self) -> usize {
        self.differing
    }

    /// Looks at a claim and prints its line.
    pub fn claim(&mut self, name: &str, look: impl FnOnce(&mut Claim)) {
        let mut claim = Claim {
            seen: String::new(),
            differs: false,
        };
        look(&mut claim);
        let verdict = if claim.differs { "DIFFERS" } else { "ok" };
        if claim.differs {
            self.differing += 1;
        } else {
            self.held += 1;
        }
        println!("{verdict} {name}:{}", claim.seen);
    }
}

impl Claim {
    fn note(&mut self, what: &str, seen: &str, wanted: &str) {
        write!(self.seen, " {what}{seen};").expect("a string takes what is written");
        if seen != wanted {
            self.differs = true;
            write!(self.seen, " WANTED{wanted};").expect("a string takes what is written");
        }
    }

    /// Floats seen and wanted, by their bits.
    pub fn floats(&mut self, what: &str, seen: &[f64], wanted: &[f64]) {
        let (mut left, mut right) = (String::new(), String::new());
        words::push_floats(&mut left, seen);
        words::push_floats(&mut right, wanted);
        self.note(what, &left, &right);
    }

    pub fn float(&mut self, what: &str, seen: f64, wanted: f64) {
        self.floats(what, &[seen], &[wanted]);
    }

    /// Tags seen and wanted.
    pub fn tags(&mut self, what: &str, seen: &[u16], wanted: &[u16]) {
        self.note(what, &hex(seen), &hex(wanted));
    }

    /// Counts and refusal numbers, in decimal.
    pub fn number(&mut self, what: &str, seen: usize, wanted: usize) {
        self.note(what, &format!(" = {seen}"), &format!(" = {wanted}"));
    }

    /// A float or a count that is told and not compared.
    pub fn told_float(&mut self, what: &str, seen: f64) {
        self.float(what, seen, seen);
    }

    pub fn told_number(&mut self, what: &str, seen: usize) {
        self.number(what, seen, seen);
    }

    /// Something that is so or not.
    pub fn so(&mut self, what: &str, holds: bool) {
        self.note(what, if holds { ": yes" } else { ": no" }, ": yes");
    }
}

fn hex(tags: &[u16]) -> String {
    tags.iter().map(|tag| format!(" {tag:04x}")).collect()
}

pub fn settings(quadraticity: f64, monotonicity: f64, positivity: bool) -> Settings {
    Settings {
        quadraticity,
        monotonicity,
        positivity,
    }
}

/// Whether a call panics; its message is kept off the report.
pub fn panics(call: impl FnOnce() + UnwindSafe) -> bool {
    let hook = panic::take_hook();
    panic::set_hook(Box::new(|_| {}));
    let outcome = panic::catch_unwind(call);
    panic::set_hook(hook);
    outcome.is_err()
}
