//! Holds the proved library against the original: seeded cases and roots, every number bit for bit, any NaN matching any NaN. A value, a
//! primitive or a strip that is not finite is compared by the mark: the library has to refuse it.
//!
//! The cases are the same for the same seed and count, and so is what is printed but for times, which go to standard error. The first that differs is made as small as can be and told in bits.

use std::panic;
use std::process::ExitCode;
use std::sync::atomic::{AtomicU64, Ordering::Relaxed};
use std::thread;
use std::time::{Duration, Instant};

use differential::counts::Counts;
use differential::judge::{Judge, Mismatch};
use differential::{defaults, draw, roots, shrink};

const THREADS: u64 = 2;
const USAGE: &str = "differential [--seconds S] [--cases N] [--roots N] [--seed X]";

/// What is run where the command line says nothing else.
const CASES: u64 = 200_000;
const ROOTS: u64 = 1_000_000;

/// Of a run that is given so many seconds, the part that goes to roots.
const ROOTS_SHARE: f64 = 0.15;

/// How many cases, and roots, before a thread looks at the clock.
const BATCH: u64 = 64;
const ROOT_BATCH: u64 = 1 << 16;

/// Seconds between two lines that say how far it is.
const QUIET: u64 = 30;

/// Turns to take: so many, or as many as the time allows.
#[derive(Clone, Copy)]
struct Amount {
    turns: u64,
    until: Option<Instant>,
}

struct Asked {
    cases: Amount,
    roots: Amount,
    seed: u64,
}

fn asked() -> Option<Asked> {
    let (mut seconds, mut cases, mut roots, mut seed) = (None, None, None, 1);
    let mut words = std::env::args().skip(1);
    while let Some(word) = words.next() {
        let number = words.next()?;
        match &*word {
            "--seconds" => seconds = Some(number.parse::<f64>().ok().filter(|s| *s >= 0.0)?),
            "--cases" => cases = Some(number.parse().ok()?),
            "--roots" => roots = Some(number.parse().ok()?),
            "--seed" => seed = number.parse().ok()?,
            _ => return None,
        }
    }
    let now = Instant::now();
    let after = |share: f64| {
        let seconds: f64 = seconds?;
        now.checked_add(Duration::try_from_secs_f64(seconds * share).ok()?)
    };
    let unsaid = |count: Option<u64>, other: Option<u64>, usual: u64| match (count, other) {
        (Some(count), _) => count,
        _ if seconds.is_some() => u64::MAX,
        // One of the two asked for by itself.
        (None, Some(_)) => 0,
        (None, None) => usual,
    };
    Some(Asked {
        cases: Amount {
            turns: unsaid(cases, roots, CASES),
            until: after(if roots.is_some() {
                1.0
            } else {
                1.0 - ROOTS_SHARE
            }),
        },
        roots: Amount {
            turns: unsaid(roots, cases, ROOTS),
            until: after(1.0).filter(|_| roots.is_none()),
        },
        seed,
    })
}

/// The first turn that differed, and what it showed.
type Found<T> = Option<(u64, T)>;

/// Takes turns on every thread, each thread its own numbers, until the amount is reached or one differs. The lowest number that
/// differs is found whatever the threads' speed.
fn run<T: Send>(
    amount: Amount,
    batch: u64,
    name: &str,
    turn: impl Fn(&mut Judge, u64) -> Result<(), T> + Sync,
) -> (Counts, Found<T>) {
    let (done, end) = (AtomicU64::new(0), AtomicU64::new(amount.turns));
    let start = Instant::now();
    let work = |thread: u64| {
        let mut judge = Judge::default();
        let mut number = thread;
        let mut next = QUIET;
        while number < end.load(Relaxed) {
            if let Err(found) = turn(&mut judge, number) {
                end.fetch_min(number, Relaxed);
                return (judge.counts, Some((number, found)));
            }
            number += THREADS;
            if (number / THREADS).is_multiple_of(batch) {
                done.fetch_add(batch, Relaxed);
                if amount.until.is_some_and(|until| Instant::now() >= until) {
                    break;
                }
                let seconds = start.elapsed().as_secs();
                if thread == 0 && seconds >= next {
                    next = seconds + QUIET;
                    eprintln!("{} {name} in {seconds} s", done.load(Relaxed));
                }
            }
        }
        (judge.counts, None)
    };
    let mut counts = Counts::default();
    let mut first: Found<T> = None;
    thread::scope(|scope| {
        let work = &work;
        let threads: Vec<_> = (0..THREADS).map(|n| scope.spawn(move || work(n))).collect();
        for thread in threads {
            let (more, found) = thread.join().expect("a thread that ends");
            counts.add(&more);
            if let Some((number, _)) = &found
                && first.as_ref().is_none_or(|(other, _)| number < other)
            {
                first = found;
            }
        }
    });
    (counts, first)
}

fn main() -> ExitCode {
    let Some(asked) = asked() else {
        eprintln!("{USAGE}");
        return ExitCode::from(2);
    };
    if !oracle::AT_HAND {
        println!("{}", oracle::NOT_AT_HAND);
        return ExitCode::SUCCESS;
    }
    let seed = asked.seed;
    println!("seed {seed}");
    if let Some(told) = defaults::compare() {
        println!("{told}\nmismatches 1");
        return ExitCode::FAILURE;
    }
    println!("the gas default is the original's default");
    // A side that stops is a difference like another, and is told once.
    panic::set_hook(Box::new(|_| {}));

    let start = Instant::now();
    let (mut counts, found) = run(asked.cases, BATCH, "cases", |judge, number| {
        shrink::judged(judge, &draw::case(seed, number))
    });
    let cases_took = start.elapsed();
    if let Some((number, found)) = found {
        return differs(seed, number, found);
    }

    let start = Instant::now();
    let (roots, found) = run(asked.roots, ROOT_BATCH, "roots", |judge, number| {
        let a = roots::number(seed, number);
        judge.counts.roots += 1;
        roots::compare(a).map_or(Ok(()), |_| Err(a))
    });
    let roots_took = start.elapsed();
    if let Some((number, a)) = found {
        println!("root {number} of seed {seed} differs");
        println!("{}", roots::compare(a).expect("a difference"));
        let told = roots::compare(roots::smallest(a));
        println!("the smallest such case: {}", told.expect("a difference"));
        println!("mismatches 1");
        return ExitCode::FAILURE;
    }
    counts.add(&roots);

    print!("{counts}");
    speed("cases", counts.cases, cases_took);
    speed("values and primitives", counts.queries, cases_took);
    speed("roots", counts.roots, roots_took);
    let missing = if counts.cases == 0 {
        Vec::new()
    } else {
        counts.missing()
    };
    println!("mismatches 0");
    for missing in &missing {
        println!("too few cases: {missing}");
    }
    if missing.is_empty() {
        ExitCode::SUCCESS
    } else {
        ExitCode::FAILURE
    }
}

fn speed(name: &str, count: u64, took: Duration) {
    if count > 0 {
        let seconds = took.as_secs_f64();
        let each = count as f64 / seconds;
        eprintln!("{name}: {count} in {seconds:.1} s, {each:.0} a second");
    }
}

fn differs(seed: u64, number: u64, found: Mismatch) -> ExitCode {
    println!("case {number} of seed {seed} differs in {}", found.part);
    println!("{}", found.told);
    let (case, found) = shrink::smallest(draw::case(seed, number), found);
    println!("the smallest such case differs in {}", found.part);
    println!("{}", found.told);
    print!("{case}");
    println!("mismatches 1");
    ExitCode::FAILURE
}
