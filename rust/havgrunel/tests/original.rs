//! The original beside the crate: every number the same, bit for bit, any NaN matching any NaN. A price or a total that is not finite is
//! refused here, and told by the original.

mod drawn;

use drawn::{price, table};
use havgrunel::lent::{self, Buffers};
use havgrunel::{
    ConvexMonotone, ConvexMonotoneInterpolation, Record, Refusal, SLOTS, Section, sqrt,
};
use oracle::answers::rng::Rng;
use oracle::words::bits;
use oracle::{Convex, Quadratic, Recipe, Settings};

/// Whether there is an original to hold the crate against; without it a test has nothing to do.
fn at_hand() -> bool {
    if !oracle::AT_HAND {
        eprintln!("{}", oracle::NOT_AT_HAND);
    }
    oracle::AT_HAND
}

fn settings(rng: &mut Rng) -> Settings {
    Settings {
        quadraticity: [0.0, 1.0, -0.0, rng.unit(), rng.unit()][rng.below(5) as usize],
        monotonicity: [0.0, 1.0, rng.unit(), rng.unit()][rng.below(4) as usize],
        positivity: rng.chance(2),
    }
}

fn method(settings: &Settings) -> ConvexMonotone {
    ConvexMonotone::new(
        settings.quadraticity,
        settings.monotonicity,
        settings.positivity,
    )
}

fn queries(rng: &mut Rng, x: &[f64]) -> Vec<f64> {
    let (first, last) = (x[0], x[x.len() - 1]);
    let mut queries = x.to_vec();
    queries.extend((0..12).map(|_| rng.between(first - 1.0, last + 1.0)));
    queries.extend([f64::NAN, f64::INFINITY, f64::NEG_INFINITY]);
    queries
}

fn told(answer: Result<f64, Refusal>) -> Result<u64, u8> {
    answer.map(bits).map_err(Refusal::number)
}

fn judged(answer: Result<f64, oracle::Refusal>) -> Result<u64, u8> {
    match answer {
        Ok(number) if !number.is_finite() => Err(Refusal::NotFinite.number()),
        answer => answer.map(bits).map_err(oracle::Refusal::number),
    }
}

fn same_section(mine: &Section, other: &oracle::Record) -> bool {
    mine.tag == other.tag && mine.fields.map(bits) == other.bits()
}

/// A section's own numbers, its prices at its two knots and the total after it.
fn same_record(mine: &Record, other: &oracle::Record, knots: [f64; 3]) -> bool {
    let told = [mine.left_price(), mine.right_price(), mine.total()];
    same_section(&mine.section(), other) && told.map(bits) == knots.map(bits)
}

/// All that two curves of a table hold and answer.
fn agree(
    rng: &mut Rng,
    settings: &Settings,
    (x, y): (&[f64], &[f64]),
    mine: ConvexMonotoneInterpolation,
    other: oracle::Curve,
) {
    assert_eq!(mine.sections(), other.sections());
    let knots = oracle::knots(settings, x, y, &other);
    for (place, record) in mine.records().enumerate() {
        assert!(same_record(&record, &other.record(place), knots[place]));
        let f_next = record.f_next().map(bits);
        assert_eq!(f_next, Ok(bits(other.f_next(place))));
    }
    let tail = mine.tail();
    assert_eq!(
        [tail.value, tail.total, tail.from].map(bits),
        other.extrapolation().map(bits)
    );
    let allow = rng.chance(2);
    let mine = mine.with_extrapolation(allow);
    let other = other.with_extrapolation(allow);
    for q in queries(rng, x) {
        assert_eq!(told(mine.value(q)), judged(other.value(q)));
        assert_eq!(told(mine.primitive(q)), judged(other.primitive(q)));
        assert_eq!(told(mine.derivative(q)), judged(other.derivative(q)));
    }
}

#[test]
fn random_tables_build_the_same_curve() {
    if !at_hand() {
        return;
    }
    let mut rng = Rng::new(0x7461_626c_6573);
    for _ in 0..4_000 {
        let settings = settings(&mut rng);
        let (x, y) = table(&mut rng, 2, 10);
        let mine = method(&settings).interpolate(&x, &y).expect("builds");
        let other = oracle::build(&settings, &x, &y).expect("builds");
        let nodes = oracle::nodes(&settings, &x, &y, None).expect("builds");
        let (mine_nodes, nodes) = (mine.nodes().iter(), nodes.iter());
        assert!(
            mine_nodes
                .map(|&node| bits(node))
                .eq(nodes.map(|&node| bits(node)))
        );
        agree(&mut rng, &settings, (&x, &y), mine, other);
    }
}

#[test]
fn random_tables_grow_the_same_curve() {
    if !at_hand() {
        return;
    }
    let mut rng = Rng::new(0x6772_6f77);
    for _ in 0..600 {
        let settings = settings(&mut rng);
        let (x, y) = table(&mut rng, 2, 10);
        let localisation = 1 + rng.below(x.len() as u64 - 1) as usize;
        let end = x.len() - usize::from(rng.chance(4)).min(x.len() - localisation - 1);
        let (mut mine, mut other): (Option<ConvexMonotoneInterpolation>, Option<oracle::Curve>) =
            (None, None);
        for points in localisation + 1..=x.len() {
            let (x, y) = (&x[..points], &y[..points]);
            let next = method(&settings).local_interpolate(x, y, localisation, mine.as_ref(), end);
            let judge = oracle::grow(&settings, x, y, localisation, other.as_ref(), end);
            assert_eq!(
                next.as_ref().err().map(|r| r.number()),
                judge.as_ref().err().map(|r| r.number())
            );
            let (Ok(next), Ok(judge)) = (next, judge) else {
                break;
            };
            agree(
                &mut rng,
                &settings,
                (x, y),
                next.clone(),
                oracle::grow(&settings, x, y, localisation, other.as_ref(), end).expect("grew"),
            );
            (mine, other) = (Some(next), Some(judge));
        }
    }
}

#[test]
fn held_and_seamed_tables_build_the_same_curve() {
    if !at_hand() {
        return;
    }
    let mut rng = Rng::new(0x7365_616d);
    for _ in 0..2_000 {
        let settings = settings(&mut rng);
        let (x, y) = table(&mut rng, 2, 10);
        let hold = rng.chance(2);
        let seam = rng.chance(2).then(|| oracle::Seam {
            count: rng.below(x.len() as u64 + 1) as usize,
            f_next: price(&mut rng, 0),
        });
        let (mut nodes, mut tags, mut slots) = (
            vec![0.0; x.len()],
            vec![0; x.len()],
            vec![0.0; SLOTS * x.len()],
        );
        let buffers = Buffers {
            nodes: &mut nodes,
            tags: &mut tags,
            slots: &mut slots,
        };
        let my_seam = seam.map(|seam| lent::Seam {
            count: seam.count,
            node: seam.f_next,
        });
        let mine = lent::build(&x, &y, method(&settings), hold, my_seam, buffers);
        let other = oracle::build_with(&settings, &x, &y, hold, seam);
        let (mine, other) = match (mine, other) {
            (Ok(mine), Ok(other)) => (mine, other),
            (mine, other) => {
                let mine = mine.err().map(Refusal::number);
                assert_eq!(mine, other.err().map(oracle::Refusal::number));
                continue;
            }
        };
        assert_eq!((mine.sections, mine.held), (other.sections(), other.held()));
        let knots = oracle::knots(&settings, &x, &y, &other);
        for (place, &tag) in tags.iter().enumerate().take(mine.sections) {
            let slots = lent::record(x.len(), &slots, place).expect("there");
            let record = Record { tag, slots };
            assert!(same_record(&record, &other.record(place), knots[place]));
        }
        for q in queries(&mut rng, &x) {
            let value = lent::value(&x, &mine, &tags, &slots, q);
            let primitive = lent::primitive(&x, &mine, &tags, &slots, q);
            assert_eq!(told(value), judged(other.value(q)));
            assert_eq!(told(primitive), judged(other.primitive(q)));
        }
    }
}

fn quadratic(part: &Quadratic) -> Section {
    let &[a, b, c, d, e, f] = part.args();
    match part {
        Quadratic::Plain(_) => Section::quadratic(a, b, c, d, e, f),
        Quadratic::Min(_) => Section::quadratic_min(a, b, c, d, e, f),
    }
}

fn convex(part: &Convex) -> Section {
    let &[a, b, c, d, e, f, g] = part.args();
    match part {
        Convex::Two(_) => Section::convex_monotone2(a, b, c, d, e, f, g),
        Convex::Three(_) => Section::convex_monotone3(a, b, c, d, e, f, g),
        Convex::Four(_) => Section::convex_monotone4(a, b, c, d, e, f, g),
        Convex::FourMin(_) => Section::convex_monotone4_min(a, b, c, d, e, f, g),
    }
}

fn section(recipe: &Recipe) -> Section {
    match recipe {
        &Recipe::Constant([a, b, c]) => Section::everywhere_constant(a, b, c),
        &Recipe::Gradient([a, b, c, d, e]) => Section::constant_grad(a, b, c, d, e),
        Recipe::Convex(part) => convex(part),
        Recipe::Quadratic(part) => quadratic(part),
        Recipe::Combination(weight, one, two) => {
            Section::combination(&quadratic(one), &convex(two), *weight).expect("two parts")
        }
    }
}

#[test]
fn single_sections_are_the_same() {
    if !at_hand() {
        return;
    }
    let mut rng = Rng::new(0x6b69_6e64);
    for turn in 0..4_500_u64 {
        let style = rng.below(5);
        let mut word = || price(&mut rng, style).to_bits();
        let kind = 1 + turn % 9;
        let count = [3, 5, 7, 7, 7, 7, 6, 6, 0][kind as usize - 1];
        let mut words = vec![kind];
        if kind == 9 {
            words.extend([0.375_f64.to_bits(), 7 + turn / 9 % 2]);
            words.extend((0..6).map(|_| word()));
            words.push(3 + turn / 18 % 4);
            words.extend((0..7).map(|_| word()));
        } else {
            words.extend((0..count).map(|_| word()));
        }
        let recipe = Recipe::read(&words).expect("a recipe");
        let (mine, other) = (section(&recipe), oracle::section(&recipe));
        assert!(same_section(&mine, &other.record()));
        for _ in 0..6 {
            let x = price(&mut rng, style);
            let answers = mine.answers(x).expect("legal");
            let due = [other.value(x), other.primitive(x)];
            for (marked, due) in [answers.value, answers.primitive].into_iter().zip(due) {
                assert_eq!(
                    (bits(marked.number), marked.finite),
                    (bits(due), due.is_finite())
                );
            }
            assert_eq!(bits(answers.f_next), bits(other.f_next()));
            assert_eq!(told(mine.value(x)), judged(Ok(due[0])));
            assert_eq!(told(mine.primitive(x)), judged(Ok(due[1])));
        }
    }
}

#[test]
fn roots_are_the_same() {
    let mut rng = Rng::new(0x726f_6f74);
    for _ in 0..20_000 {
        let a = f64::from_bits(rng.word() >> rng.below(64));
        assert_eq!(bits(sqrt(a)), bits(oracle::root(a)));
        assert_eq!(bits(sqrt(-a)), bits(oracle::root(-a)));
    }
}
