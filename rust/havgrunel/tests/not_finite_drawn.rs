//! Answers that are not finite, among drawn ones: a query, a strip or an entry of a column is refused by 21 exactly where its formula gives
//! an infinite number or none, and has that number's bits everywhere else. What the formula gives is read from the section that covers a
//! place, which hands back its numbers whatever they are, and from the original's section of the same record.

mod asked;
#[allow(dead_code)]
mod columned;
mod drawn;

use asked::{all_or_nothing, bits, finite, place};
use columned::{Built, LEAST, MOST, built, told_bits};
use havgrunel::{FIELDS, Refusal, SLOTS, lent};
use oracle::answers::rng::Rng;

const FAR: [f64; 6] = [
    1.0e308,
    f64::INFINITY,
    -1.0e308,
    f64::NEG_INFINITY,
    MOST,
    -MOST,
];

/// A curve as it was drawn, or with numbers of any size or of the edges of the ordinary ones in its records, its tail and its column, or
/// with a record that is not legal.
fn hostile(rng: &mut Rng) -> Built {
    let mut built = built(rng);
    let edges = rng.chance(2);
    let wild = |rng: &mut Rng| {
        let any = f64::from_bits(rng.word());
        if edges {
            rng.pick(&[
                MOST,
                -MOST,
                MOST,
                LEAST,
                LEAST,
                LEAST.next_down(),
                MOST.next_up(),
            ])
        } else {
            rng.pick(&[f64::INFINITY, f64::NAN, f64::MAX, 1.0e-320, 0.0, any, any])
        }
    };
    for _ in 0..rng.below(4) {
        let Built { curve, written, .. } = &mut built;
        let slot = rng.below(written.slots.len() as u64) as usize;
        let entry = rng.below(written.column.len() as u64) as usize;
        match rng.below(8) {
            0 => curve.tail.value = wild(rng),
            1 => curve.tail.total = wild(rng),
            2 => written.tags[slot / SLOTS] = 0,
            3 | 4 => written.column[entry] = wild(rng),
            _ => written.slots[slot] = wild(rng),
        }
    }
    built
}

/// That the original's section of the same record gives these numbers.
fn same_as_the_original(built: &Built, x: f64, due: [f64; 2]) {
    let place = built.knots[1..].iter().position(|&knot| knot > x);
    if let (true, Some(place)) = (oracle::AT_HAND, place) {
        let fields = &built.written.slots[SLOTS * place..][..FIELDS];
        let record = oracle::Record {
            tag: built.written.tags[place],
            slots: fields.try_into().expect("a section's own"),
        };
        let section = oracle::section_of(&record).expect("legal");
        assert_eq!(bits(&due), bits(&[section.value(x), section.primitive(x)]));
    }
}

/// How often each path was told a number, and how often it was refused by 21.
#[derive(Default)]
struct Seen {
    told: [usize; PATHS.len()],
    not_finite: [usize; PATHS.len()],
}

const PATHS: [&str; 9] = [
    "value",
    "primitive",
    "strip",
    "strip_between",
    "column_entry",
    "values",
    "primitives",
    "strips",
    "strip_run",
];

impl Seen {
    fn see<T, R: Into<Refusal>>(&mut self, path: usize, told: Result<T, R>) {
        match told.map_err(Into::into) {
            Ok(_) => self.told[path] += 1,
            Err(Refusal::NotFinite) => self.not_finite[path] += 1,
            Err(_) => {}
        }
    }

    /// That a path told what is due.
    fn same(&mut self, path: usize, told: Result<f64, Refusal>, due: Result<f64, Refusal>) {
        assert_eq!(told_bits(told), told_bits(due), "{}", PATHS[path]);
        self.see(path, told);
    }
}

fn one_by_one(built: &Built, xs: &[f64], seen: &mut Seen) {
    for &x in xs {
        let there = built.covering(x);
        let value = there.and_then(|there| finite(there.value.number));
        let primitive = there.and_then(|there| finite(there.primitive.number));
        seen.same(0, built.value(x), value);
        seen.same(1, built.primitive(x), primitive);
        if let Ok(there) = there {
            assert_eq!(there.value.told().is_ok(), value.is_ok());
            assert_eq!(there.primitive.told().is_ok(), primitive.is_ok());
            same_as_the_original(built, x, [there.value.number, there.primitive.number]);
        }
    }
    let (column, knots) = (built.column(), &built.knots);
    for (i, &entry) in column.iter().enumerate() {
        seen.same(4, lent::column_entry(column, i), finite(entry));
        for j in i + 1..column.len().min(i + 4) {
            let due = finite((column[j] - entry) / (knots[j] - knots[i]));
            seen.same(3, lent::strip_between(knots, column, i, j), due);
        }
    }
}

/// These places at once, the strips from each to the next one by one and in a run, and strips from those before the middle to those behind
/// it.
fn at_once(built: &Built, xs: &[f64], seen: &mut Seen) {
    let values = xs.iter().map(|&x| finite(built.covering(x)?.value.number));
    seen.see(5, all_or_nothing(values, |into| built.values(xs, into)));
    let totals = xs.iter().map(|&x| finite(built.total(x)?));
    seen.see(6, all_or_nothing(totals, |into| built.primitives(xs, into)));
    let half = xs.len() / 2;
    let (starts, ends) = (&xs[..half], &xs[xs.len() - half..]);
    let strips = starts.iter().zip(ends).map(|(&a, &b)| built.due(a, b));
    let told = all_or_nothing(strips, |into| built.strips(starts, ends, into));
    seen.see(7, told);
    for ends in xs.windows(2) {
        seen.same(
            2,
            built.strip(ends[0], ends[1]),
            built.due(ends[0], ends[1]),
        );
    }
    let run = xs.windows(2).map(|ends| built.due(ends[0], ends[1]));
    seen.see(8, all_or_nothing(run, |into| built.strip_run(xs, into)));
}

#[test]
fn drawn_curves_on_every_path() {
    let mut rng = Rng::new(0x6e6f_7466);
    let mut seen = Seen::default();
    let mut ways = [0; 3];
    for _ in 0..5_000 {
        let built = hostile(&mut rng);
        let mut xs: Vec<f64> = (0..12).map(|_| place(&mut rng, &built.knots)).collect();
        if rng.chance(4) {
            xs.insert(rng.below(13) as usize, rng.pick(&FAR));
        } else if rng.chance(2) {
            // Without them, that none is refused may be known beforehand.
            xs.retain(|&x| built.covering(x).is_ok());
        }
        let known = xs.len() >= built.knots.len();
        ways[usize::from(known) + usize::from(known && built.is_ordinary())] += 1;
        one_by_one(&built, &xs, &mut seen);
        at_once(&built, &xs, &mut seen);
        // Those that are refused for nothing else, and two of them at a time, of which fewer are refused.
        xs.sort_by(f64::total_cmp);
        xs.dedup();
        xs.retain(|&x| built.covering(x).is_ok());
        at_once(&built, &xs, &mut seen);
        for two in xs.chunks_exact(2) {
            at_once(&built, two, &mut seen);
        }
    }
    println!(
        "fewer than knots, more of a curve that is not of ordinary size, of one that is: {ways:?}"
    );
    assert!(ways.into_iter().all(|times| times > 500));
    for (path, name) in PATHS.iter().enumerate() {
        let (told, not_finite) = (seen.told[path], seen.not_finite[path]);
        println!("{name}: {told} told, {not_finite} not finite");
        assert!(told > 1_000 && not_finite > 1_000, "{name}");
    }
}
