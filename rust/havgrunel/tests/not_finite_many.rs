//! Which of many queries or strips is refused first: by every kind of refusal, at the ends of the blocks in which they are looked at and at
//! both ends of all, for fewer of them than knots and for more, of curves of ordinary size, whose queries are not looked at one by one, and
//! of others.

#[allow(dead_code)]
mod asked;
#[allow(dead_code)]
mod columned;
#[allow(dead_code)]
mod drawn;

use asked::{all_or_nothing, finite};
use columned::{Built, Written};
use havgrunel::lent;
use havgrunel::{ConvexMonotone, ManyRefused, Refusal};

/// A sort of curve: what its averages are multiplied by, and the price of its middle month, which has a section of its own.
#[derive(Clone, Copy, Debug)]
struct Sort {
    size: f64,
    middle: f64,
}

/// Curves of ordinary size, of another size, and with a month at 0, which has neither price nor total at its first knot.
const SORTS: [Sort; 3] = [
    Sort {
        size: 1.0,
        middle: 25.0,
    },
    Sort {
        size: 1.0e30,
        middle: 25.0,
    },
    Sort {
        size: 1.0,
        middle: 0.0,
    },
];

const DAYS: f64 = 30.0;

fn built(sort: Sort, points: usize, extrapolates: bool) -> Built {
    let knots: Vec<f64> = (0..points).map(|i| DAYS * i as f64).collect();
    let price = |i: usize| sort.size * (20.0 + (i * i % 7) as f64);
    let mut averages: Vec<f64> = (0..points).map(price).collect();
    averages[points / 2 + 1] = sort.size * sort.middle;
    let mut written = Written::room(points);
    let (buffers, column) = written.lent();
    let method = ConvexMonotone::gas();
    let curve = lent::build_with_column(&knots, &averages, method, false, None, buffers, column);
    let mut curve = curve.expect("builds");
    curve.extrapolates = extrapolates;
    let built = Built {
        knots,
        curve,
        written,
    };
    assert_eq!(built.is_ordinary(), sort.size == 1.0 && sort.middle > 0.0);
    built
}

/// Rising places: so many before the middle month, one that is put there, and as many behind that month as are left.
fn places(built: &Built, count: usize, at: usize, middle: f64) -> Vec<f64> {
    let (points, last) = (built.knots.len(), built.knots.len() - 1);
    let (first, end) = (built.knots[0], built.knots[last]);
    let (from, to) = (built.knots[points / 2], built.knots[points / 2 + 1]);
    let between = |a: f64, b: f64, i: usize, n: usize| a + (b - a) * (i as f64 + 0.5) / n as f64;
    let before = (0..at).map(|i| between(first, from, i, at));
    let behind = count.saturating_sub(at + 1);
    let after = (0..behind).map(|i| between(to, end, i, behind));
    before.chain([middle]).chain(after).take(count).collect()
}

fn first_at(refusal: Refusal, place: usize) -> Result<(), ManyRefused> {
    let query = Some(place);
    Err(ManyRefused { refusal, query })
}

/// A place in the middle month, or outside the knots, and what a query there is refused for.
fn refused(built: &mut Built, sort: Sort, refusal: Refusal, total: bool) -> Option<f64> {
    let middle = built.knots.len() / 2;
    match refusal {
        Refusal::QueryNotANumber => Some(f64::NAN),
        Refusal::QueryOutside => (!built.curve.extrapolates).then_some(-1.0),
        Refusal::RecordNotLegal => {
            built.written.tags[middle] = 0;
            Some(built.knots[middle] + 1.0)
        }
        Refusal::NotFinite if sort.middle == 0.0 => Some(built.knots[middle]),
        // Beyond the knots a total is infinite, and so is a price before them.
        Refusal::NotFinite if built.curve.extrapolates => {
            Some(if total { 1.0e308 } else { -1.0e308 })
        }
        _ => None,
    }
}

const KINDS: [Refusal; 4] = [
    Refusal::QueryNotANumber,
    Refusal::QueryOutside,
    Refusal::RecordNotLegal,
    Refusal::NotFinite,
];

/// Every sort of curve with each count of places, and the places in the count at which the first is refused.
fn each(mut check: impl FnMut(Sort, usize, bool, usize, usize)) {
    for sort in SORTS {
        for points in [40, 100] {
            let counts = [
                1,
                63,
                64,
                65,
                128,
                129,
                points - 1,
                points,
                points + 1,
                1000,
            ];
            for count in counts {
                for extrapolates in [false, true] {
                    for place in [0, 62, 63, 64, 127, 128, count - 1] {
                        if place < count {
                            check(sort, points, extrapolates, count, place);
                        }
                    }
                }
            }
        }
    }
}

fn values(built: &Built, xs: &[f64]) -> Result<(), ManyRefused> {
    let due = xs.iter().map(|&x| finite(built.covering(x)?.value.number));
    all_or_nothing(due, |into| built.values(xs, into))
}

fn primitives(built: &Built, xs: &[f64]) -> Result<(), ManyRefused> {
    let due = xs.iter().map(|&x| finite(built.total(x)?));
    all_or_nothing(due, |into| built.primitives(xs, into))
}

#[test]
fn the_first_refused_query_is_named() {
    let mut seen = [[0; KINDS.len()]; 2];
    each(|sort, points, extrapolates, count, place| {
        for (kind, refusal) in KINDS.into_iter().enumerate() {
            for (total, ask) in [
                (false, values as fn(&Built, &[f64]) -> _),
                (true, primitives),
            ] {
                let mut built = built(sort, points, extrapolates);
                let Some(bad) = refused(&mut built, sort, refusal, total) else {
                    continue;
                };
                let mut xs = places(&built, count, place, bad);
                assert_eq!(
                    ask(&built, &xs),
                    first_at(refusal, place),
                    "{sort:?}, {count}"
                );
                seen[usize::from(total)][kind] += 1;
                // Others behind it are of no account, in whatever order the rest come.
                xs[place + 1..].reverse();
                xs[..place].reverse();
                xs.extend([f64::NAN, bad]);
                assert_eq!(ask(&built, &xs), first_at(refusal, place));
                xs.retain(|&x| x.to_bits() != bad.to_bits() && !x.is_nan());
                assert_eq!(ask(&built, &xs), Ok(()));
            }
        }
    });
    println!("values and primitives refused first by {KINDS:?}: {seen:?}");
    assert!(seen.iter().flatten().all(|&times| times > 100), "{seen:?}");
}

fn strips(built: &Built, pairs: &[(f64, f64)]) -> Result<(), ManyRefused> {
    let (starts, ends): (Vec<f64>, Vec<f64>) = pairs.iter().copied().unzip();
    let due = pairs.iter().map(|&(a, b)| built.due(a, b));
    all_or_nothing(due, |into| built.strips(&starts, &ends, into))
}

fn run(built: &Built, edges: &[f64]) -> Result<(), ManyRefused> {
    let due = edges.windows(2).map(|ends| built.due(ends[0], ends[1]));
    all_or_nothing(due, |into| built.strip_run(edges, into))
}

/// The strips of a run, and the same in any order; a strip is refused for its second end first, and then where the next starts from it.
#[test]
fn the_first_refused_strip_is_named() {
    let kinds = [KINDS.as_slice(), &[Refusal::StripEndsNotRising]].concat();
    let mut seen = vec![0; kinds.len()];
    each(|sort, points, extrapolates, count, place| {
        for (kind, &refusal) in kinds.iter().enumerate() {
            let mut built = built(sort, points, extrapolates);
            let good = |built: &Built| built.knots[points / 2] + 2.0;
            let bad = match refusal {
                Refusal::StripEndsNotRising => Some(good(&built)),
                _ => refused(&mut built, sort, refusal, true),
            };
            let Some(bad) = bad else {
                continue;
            };
            let mut edges = places(&built, count + 1, place + 1, bad);
            if refusal == Refusal::StripEndsNotRising {
                edges[place] = bad;
            }
            assert_eq!(
                run(&built, &edges),
                first_at(refusal, place),
                "{sort:?}, {count}"
            );
            let mut pairs: Vec<(f64, f64)> = edges.windows(2).map(|ab| (ab[0], ab[1])).collect();
            assert_eq!(strips(&built, &pairs), first_at(refusal, place));
            seen[kind] += 1;
            pairs[..place].reverse();
            pairs[place + 1..].reverse();
            assert_eq!(strips(&built, &pairs), first_at(refusal, place));
            pairs.retain(|&(a, b)| built.due(a, b).is_ok());
            assert_eq!(strips(&built, &pairs), Ok(()));
            edges.remove(place + 1);
            edges.dedup();
            assert_eq!(run(&built, &edges), Ok(()));
        }
    });
    println!("strips refused first by {kinds:?}: {seen:?}");
    assert!(seen.iter().all(|&times| times > 100), "{seen:?}");
}

/// Nothing is asked, of any curve that is not refused itself.
#[test]
fn none_at_all() {
    for sort in SORTS {
        let mut built = built(sort, 40, false);
        built.written.slots.fill(f64::NAN);
        assert_eq!(
            (values(&built, &[]), primitives(&built, &[])),
            (Ok(()), Ok(()))
        );
        assert_eq!((strips(&built, &[]), run(&built, &[])), (Ok(()), Ok(())));
        assert_eq!(run(&built, &[f64::NAN]), Ok(()));
        built.written.tags.pop();
        let short = Err(asked::NO_ROOM);
        let told = [built.values(&[], &mut []), built.strip_run(&[], &mut [])];
        assert_eq!(told, [short; 2]);
        assert_eq!(built.strips(&[], &[], &mut []), short);
        let unequal = built
            .strips(&[], &[1.0], &mut [])
            .map_err(|many| (many.refusal, many.query));
        assert_eq!(unequal, Err((Refusal::LengthsDiffer, None)));
    }
}
