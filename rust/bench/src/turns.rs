//! Both sides measured in turn.
//!
//! A round is a sample of the library and then one of the original, so that a machine that slows down for a while slows both. A sample
//! is taken over as many turns as are needed to be far above the clock's grain. The rounds go through four places on the stack, since a
//! function's time depends on how its frame lies to the lines of the cache, and the system puts the stack elsewhere in each run.

use std::hint::black_box;
use std::time::{Duration, Instant};

use crate::clock;
use crate::options::{FEWEST, Options, SAMPLE};
use crate::statistics::{median, percentile};

/// What one row measured, in nanoseconds to a unit.
pub struct Row {
    pub name: String,
    pub unit: &'static str,
    pub rounds: usize,
    pub ours: f64,
    pub theirs: Option<Theirs>,
}

/// The other side of a row, and the library's time over its time in the rounds.
pub struct Theirs {
    pub time: f64,
    pub ratio: f64,
    pub tenth: f64,
    pub ninetieth: f64,
}

type Turn<'a> = &'a mut dyn FnMut();

/// How many places on the stack there are, 16 bytes apart: after so many a line of the cache is full.
const PLACES: usize = 4;

/// Calls `turns` with the stack moved on to one of the places.
fn at_place(place: usize, turns: &mut dyn FnMut()) {
    #[inline(never)]
    fn moved<const BYTES: usize>(turns: &mut dyn FnMut()) {
        let room = black_box([0_u8; BYTES]);
        turns();
        black_box(&room);
    }
    match place % PLACES {
        0 => moved::<16>(turns),
        1 => moved::<32>(turns),
        2 => moved::<48>(turns),
        _ => moved::<64>(turns),
    }
}

struct Side<'a> {
    turn: Turn<'a>,
    repetitions: u32,
    samples: Vec<f64>,
}

impl<'a> Side<'a> {
    /// Warms the side up, and finds how many turns make a sample. The shortest of three tries counts, since one can be long by chance.
    fn new(turn: Turn<'a>) -> Side<'a> {
        let mut side = Side {
            turn,
            repetitions: 1,
            samples: Vec::new(),
        };
        while (0..3).any(|place| side.time(place) < SAMPLE) {
            side.repetitions *= 2;
        }
        side
    }

    fn time(&mut self, place: usize) -> Duration {
        let start = clock::now();
        at_place(place, &mut || {
            for _ in 0..self.repetitions {
                (self.turn)();
            }
        });
        clock::now() - start
    }

    fn sample(&mut self, place: usize) {
        let time = self.time(place).as_nanos() as f64;
        self.samples.push(time / f64::from(self.repetitions));
    }
}

/// Measures a row: each turn of a side does the same `units` of work.
pub fn measure(
    options: &Options,
    name: String,
    unit: &'static str,
    units: usize,
    ours: Turn<'_>,
    theirs: Option<Turn<'_>>,
) -> Row {
    let mut ours = Side::new(ours);
    let mut theirs = theirs.map(Side::new);
    let start = Instant::now();
    let mut rounds = 0;
    while rounds < options.rounds && (rounds < FEWEST || start.elapsed() < options.row) {
        ours.sample(rounds);
        if let Some(theirs) = &mut theirs {
            theirs.sample(rounds);
        }
        rounds += 1;
    }
    let units = units as f64;
    let theirs = theirs.map(|theirs| {
        let pairs = ours.samples.iter().zip(&theirs.samples);
        let ratios: Vec<f64> = pairs.map(|(ours, theirs)| ours / theirs).collect();
        Theirs {
            time: median(&theirs.samples) / units,
            ratio: median(&ratios),
            tenth: percentile(&ratios, 0.1),
            ninetieth: percentile(&ratios, 0.9),
        }
    });
    Row {
        name,
        unit,
        rounds,
        ours: median(&ours.samples) / units,
        theirs,
    }
}
