//! Sections of every kind, split and not, ordinary and extreme.

use super::Answers;
use super::queries::queries;
use super::rng::Rng;
use super::thinned;
use crate::asking::record_line;
use crate::{Convex, Quadratic, Recipe, legal_tags, section, words};

const SEED: u64 = 0x7365_6374_696f_6e73;

/// How many sections of a tag, and how many of one that is a combination.
const ALONE: usize = 20;
const COMBINED: usize = 3;

/// Draws before a tag counts as one that does not occur.
const PATIENCE: usize = 100_000;

/// Where arguments come from.
#[derive(Clone, Copy)]
enum Style {
    /// Few bits, so that breaks are met exactly.
    Neat,
    /// Nodes and averages as of a price curve.
    Priced,
    /// Anything of moderate size.
    Loose,
    /// Neat, on the line where a test decides: a share of 0 or 1, sections that
    /// touch zero, ends at zero.
    Edge,
    /// Loose, with some arguments at the ends of the number range.
    Extreme,
}

const STYLES: [Style; 5] = [
    Style::Neat,
    Style::Priced,
    Style::Extreme,
    Style::Edge,
    Style::Loose,
];

const ENDS: [f64; 18] = [
    0.0,
    -0.0,
    1.0,
    -1.0,
    1.0e-14,
    1.0e300,
    -1.0e300,
    f64::MAX,
    f64::MIN,
    f64::MIN_POSITIVE,
    -f64::MIN_POSITIVE,
    f64::from_bits(1),
    -f64::from_bits(1),
    f64::from_bits((1 << 52) - 1),
    f64::from_bits(0x0005_5555_5555_5555),
    f64::INFINITY,
    f64::NEG_INFINITY,
    f64::NAN,
];

pub fn write() -> Answers {
    let mut rng = Rng::new(SEED);
    let mut lines = String::new();
    let mut counts = Vec::new();
    for tag in legal_tags() {
        let count = if is_combined(tag) { COMBINED } else { ALONE };
        let mut asked = 0;
        for turn in 0..count {
            let style = STYLES[turn % STYLES.len()];
            asked += one(&mut rng, tag, style, turn, &mut lines);
        }
        counts.push((format!("sections, tag {tag:04x}"), count));
        counts.push((format!("queries, tag {tag:04x}"), asked));
    }
    Answers { lines, counts }
}

fn is_combined(tag: u16) -> bool {
    tag >> 13 != 0 && tag & 0x0f00 != 0
}

/// Writes a section with that tag and its queries, whose number it answers.
fn one(rng: &mut Rng, tag: u16, style: Style, turn: usize, lines: &mut String) -> usize {
    for _ in 0..PATIENCE {
        let recipe = draw(rng, tag, style);
        let made = section(&recipe);
        let record = made.record();
        if record.tag != tag {
            continue;
        }
        lines.push('s');
        recipe.push(lines);
        lines.push('\n');
        *lines += &record_line(&record, made.f_next());
        let mut asked = queries(rng, &recipe, &record, turn);
        // A tag of few sections is asked at all of its places.
        if !is_combined(tag) {
            asked = thinned(asked, turn).collect();
        }
        for &x in &asked {
            lines.push('x');
            words::push_floats(lines, &[x, made.value(x), made.primitive(x)]);
            lines.push('\n');
        }
        return asked.len();
    }
    panic!("no section with tag {tag:04x} occurred in {PATIENCE} draws");
}

/// A period and what a build would know of it.
struct Period {
    x_prev: f64,
    x_next: f64,
    f_prev: f64,
    f_next: f64,
    average: f64,
    eta: f64,
    total: f64,
}

fn period(rng: &mut Rng, style: Style) -> Period {
    let (x_prev, length) = match style {
        Style::Neat | Style::Edge => {
            let length = rng.pick(&[0.25, 0.5, 1.0, 2.0, 4.0]);
            (rng.whole(-8, 40) / 4.0, length)
        }
        Style::Priced => (rng.between(0.0, 30.0), rng.between(0.0625, 1.0)),
        _ => (rng.between(-30.0, 30.0), rng.between(0.01, 3.0)),
    };
    let mut rate = || match style {
        Style::Neat | Style::Edge => rng.whole(-4, 20) / 2.0,
        Style::Priced => rng.between(0.0, 60.0),
        _ => rng.between(-10.0, 30.0),
    };
    let (mut f_prev, mut f_next, mut average) = (rate(), rate(), rate());
    // Low averages between high nodes are what splits, so they come often.
    if rng.chance(2) {
        average /= 8.0;
    }
    let (eta, total) = match style {
        Style::Neat => (rng.whole(0, 8) / 8.0, rng.whole(-20, 20) / 2.0),
        Style::Edge => (rng.whole(0, 1), rng.whole(-20, 20) / 2.0),
        _ => (rng.unit(), rng.between(-100.0, 100.0)),
    };
    if let Style::Edge = style {
        match rng.below(4) {
            // Both kinds with a Min touch zero at three times the average.
            0 | 1 => (f_prev, f_next) = (3.0 * average, 3.0 * average),
            2 => f_prev = 0.0,
            _ => f_next = 0.0,
        }
    }
    Period {
        x_prev,
        x_next: x_prev + length,
        f_prev,
        f_next,
        average,
        eta,
        total,
    }
}

/// A recipe of the tag's kind; whether it splits is seen when it is made.
fn draw(rng: &mut Rng, tag: u16, style: Style) -> Recipe {
    let p = period(rng, style);
    let mut constant = [p.average, p.total, p.x_prev];
    let mut gradient = [p.f_prev, p.total, p.x_prev, p.x_next, p.f_next];
    let mut quadratic = [p.x_prev, p.x_next, p.f_prev, p.f_next, p.average, p.total];
    let mut convex = [
        p.x_prev,
        p.x_next,
        p.f_prev - p.average,
        p.f_next - p.average,
        p.average,
        p.eta,
        p.total,
    ];
    if let Style::Extreme = style {
        for args in [
            &mut constant[..],
            &mut gradient,
            &mut quadratic,
            &mut convex,
        ] {
            for _ in 0..1 + rng.below(2) {
                args[rng.below(args.len() as u64) as usize] = rng.pick(&ENDS);
            }
        }
    }
    let quadratic = match tag >> 13 {
        0 => None,
        1 => Some(Quadratic::Plain(quadratic)),
        _ => Some(Quadratic::Min(quadratic)),
    };
    let convex = match tag >> 8 & 0xf {
        3 => Some(Convex::Two(convex)),
        4 => Some(Convex::Three(convex)),
        5 => Some(Convex::Four(convex)),
        6 => Some(Convex::FourMin(convex)),
        _ => None,
    };
    match (quadratic, convex) {
        (Some(quadratic), Some(convex)) => {
            Recipe::Combination(weight(rng, style), quadratic, convex)
        }
        (Some(quadratic), None) => Recipe::Quadratic(quadratic),
        (None, Some(convex)) => Recipe::Convex(convex),
        (None, None) if tag == 0x0100 => Recipe::Constant(constant),
        (None, None) => Recipe::Gradient(gradient),
    }
}

fn weight(rng: &mut Rng, style: Style) -> f64 {
    match style {
        Style::Neat => rng.pick(&[0.25, 0.5, 0.75]),
        Style::Extreme => {
            let least = f64::from_bits(1);
            rng.pick(&[least, 1.0_f64.next_down(), 0.0, -0.0, 1.0, 1.5, f64::NAN])
        }
        // Strictly between 0 and 1, as every build has it.
        _ => rng.between(0.0625, 0.9375),
    }
}
