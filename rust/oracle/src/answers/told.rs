//! The lines of curves. A curve is told by whoever answers requests, so that
//! there is one way to tell it.

use super::rng::Rng;
use super::strips::{Strip, strips};
use crate::asking::Asked;
use crate::words;

const SEED: u64 = 0x7374_7269_7073;

/// How many were asked for, and how many of those were refused.
#[derive(Default)]
pub struct Count {
    pub asked: usize,
    pub refused: usize,
}

/// The lines so far.
pub struct Told {
    asked: Asked,
    rng: Rng,
    pub lines: String,
    pub builds: Count,
    pub growths: Count,
    pub queries: usize,
    pub strips: usize,
}

impl Told {
    pub fn new() -> Told {
        Told {
            asked: Asked::default(),
            rng: Rng::new(SEED),
            lines: String::new(),
            builds: Count::default(),
            growths: Count::default(),
            queries: 0,
            strips: 0,
        }
    }

    fn answer(&mut self, request: &str) -> String {
        self.asked.answer(request).expect("a request")
    }

    /// Tells what was asked for and what came of it, and then the strips of a curve with these knots; whether it was refused.
    fn make(&mut self, letter: char, verb: &str, words: &str, x: &[f64]) -> bool {
        let answer = self.answer(&format!("{verb}{words}"));
        self.lines += &format!("{letter}{words}\n{answer}");
        let refused = !answer.starts_with("b 0 ");
        if !refused {
            let turn = self.builds.asked + self.growths.asked;
            for strip in strips(&mut self.rng, x, turn) {
                self.strip(&strip);
            }
        }
        refused
    }

    pub fn build(&mut self, words: &str, x: &[f64]) {
        self.builds.asked += 1;
        self.builds.refused += usize::from(self.make('c', "build", words, x));
    }

    pub fn grow(&mut self, words: &str, x: &[f64]) {
        self.growths.asked += 1;
        self.growths.refused += usize::from(self.make('g', "grow", words, x));
    }

    fn strip(&mut self, strip: &Strip) {
        let mut words = String::new();
        words::push(&mut words, strip.allow.into());
        words::push_floats(&mut words, &[strip.a, strip.b]);
        let answer = self.answer(&format!("strip{words}"));
        let answer = answer.strip_prefix('p').expect("the answer to a strip");
        self.lines += &format!("p{words}{answer}");
        self.strips += 1;
    }

    pub fn query(&mut self, allow: bool, x: f64) {
        let mut words = String::new();
        words::push(&mut words, allow.into());
        words::push_floats(&mut words, &[x]);
        let answer = self.answer(&format!("query{words}"));
        let answer = answer.strip_prefix('q').expect("the answer to a query");
        self.lines += &format!("a{words}{answer}");
        self.queries += 1;
    }

    pub fn forget(&mut self) {
        let answer = self.answer("forget");
        self.lines += &answer;
    }
}
