//! That the judge of the careful mode would see a wrong rule: what it finds right by the document's rule, it finds wrong by
//! another, on tables made for it and among the cases that the program draws.

mod drawn;

use differential::careful::{Rule, in_period, touching};
use differential::case::{Case, Previous, Queries, Room, Sheets, Single, Step, Table};
use differential::judge::Judge;
use havgrunel::{FIELDS, Split};
use oracle::{Quadratic, Recipe, Settings};

/// Quadraticity 0 with positivity.
const STEEP: Settings = Settings {
    quadraticity: 0.0,
    monotonicity: 0.7,
    positivity: true,
};

/// The rule under which every parabola is split that passes the original's two tests.
fn original(_: f64) -> bool {
    true
}

fn at_hand() -> bool {
    if !oracle::AT_HAND {
        eprintln!("{}", oracle::NOT_AT_HAND);
    }
    oracle::AT_HAND
}

/// What differs, if anything does.
fn differs(rule: Rule, case: &Case) -> Option<&'static str> {
    let judged = Judge::by(rule).case(case);
    judged.err().map(|mismatch| mismatch.part)
}

/// Falling months; the original splits the first two at ratios of about 3.
fn falling(split: Split) -> Table {
    Table {
        settings: STEEP,
        split,
        hold: false,
        seam: None,
        x: vec![0.0, 1.0, 2.0, 3.0],
        y: vec![0.0, 5.0, 3.0, 1.0],
    }
}

fn whole(split: Split) -> Case {
    Case::Build(falling(split), Room::default(), Queries::default())
}

fn in_sheets() -> Case {
    Case::Sheets(Sheets {
        table: falling(Split::Careful),
        room: Room::default(),
        cuts: vec![1, 2],
        others: vec![2],
        order: vec![2, 0, 1],
        given: [0.0; 3],
    })
}

fn growing() -> Case {
    let Table { x, y, .. } = falling(Split::Careful);
    let step = |points: usize| Step {
        knots: points,
        averages: points,
        settings: STEEP,
        split: Split::Careful,
        localisation: 2,
        final_size: 4,
        previous: Previous::Last,
        room: Room::default(),
        queries: Queries::default(),
    };
    let steps = vec![step(3), step(4)];
    Case::Growth { x, y, steps }
}

/// A period of length 1 with these ends and this average.
fn parabola(f_prev: f64, f_next: f64, average: f64) -> Case {
    let args = [0.0, 1.0, f_prev, f_next, average, 0.0];
    Case::Section(Single {
        recipe: Recipe::Quadratic(Quadratic::Min(args)),
        split: Split::Careful,
        lent: FIELDS,
        asked: vec![0.0, 0.25, 0.75, 1.0],
    })
}

#[test]
fn judged_by_the_originals_rule_a_falling_month_differs() {
    if !at_hand() {
        return;
    }
    for case in [
        whole(Split::Careful),
        in_sheets(),
        growing(),
        parabola(4.0, 1.0, 3.0),
    ] {
        assert_eq!(differs(in_period, &case), None);
        assert_eq!(differs(original, &case), Some("a section's tag"));
    }
    // The original's mode is judged by the original alone.
    assert_eq!(differs(|_| false, &whole(Split::Original)), None);
}

#[test]
fn what_is_split_and_what_is_left_whole_is_counted() {
    if !at_hand() {
        return;
    }
    let mut judge = Judge::default();
    assert!(judge.case(&whole(Split::Careful)).is_ok());
    assert_eq!(judge.counts.careful_builds, 1);
    assert_eq!(judge.counts.left_whole(), 2);
    assert!(judge.case(&whole(Split::Original)).is_ok());
    assert_eq!(judge.counts.careful_builds, 1);
    assert!(judge.case(&in_sheets()).is_ok());
    assert_eq!(judge.counts.careful_cut, 1);
    assert_eq!(judge.counts.left_whole(), 4);
    assert!(judge.case(&growing()).is_ok());
    assert_eq!(judge.counts.careful_steps, 2);
    // Of the first step only one section is not held.
    assert_eq!(judge.counts.left_whole(), 7);
}

/// Rules that are wrong at one edge, or everywhere.
const WRONG: [(&str, Rule); 9] = [
    ("always", original),
    ("never", |_| false),
    ("0 too", |ratio| (0.0..=1.0).contains(&ratio)),
    ("without 1", |ratio| ratio > 0.0 && ratio < 1.0),
    ("just above 1 too", |ratio| {
        ratio > 0.0 && ratio <= 1.0 + f64::EPSILON
    }),
    ("a NaN too", |ratio| ratio.is_nan() || in_period(ratio)),
    ("infinite ones too", |ratio| {
        ratio == f64::INFINITY || in_period(ratio)
    }),
    ("below 0 too", |ratio| ratio <= 1.0 && ratio != 0.0),
    ("well above 1 too", |ratio| {
        in_period(ratio) || ratio > 1.0 + 4.0 * f64::EPSILON && ratio.is_finite()
    }),
];

#[test]
fn each_edge_of_the_rule_is_seen() {
    if !at_hand() {
        return;
    }
    let huge = 3.0e152;
    let near = 1.0_f64;
    // The parabola that touches zero: its discriminant is above 0 by rounding alone, so that the original splits it.
    let exact = touching(1.0, 3.0).expect("ends of one sign");
    for (name, case) in [
        ("always", parabola(4.0, 1.0, 3.0)),
        ("never", parabola(4.0, 1.0, 0.5)),
        ("0 too", parabola(4.0, 1.0, 0.0)),
        ("0 too", parabola(4.0, 1.0, -0.0)),
        ("without 1", parabola(1.0, 3.0, exact)),
        ("just above 1 too", parabola(0.0, 3.0, near.next_up())),
        ("a NaN too", parabola(huge, huge, f64::INFINITY)),
        ("infinite ones too", parabola(0.0, 0.0, 2.0)),
        ("below 0 too", parabola(4.0, 1.0, -1.0)),
        ("well above 1 too", parabola(4.0, 1.0, 3.0)),
    ] {
        let wrong = WRONG.iter().find(|(other, _)| *other == name);
        let (_, rule) = wrong.expect("a wrong rule of that name");
        assert_eq!(differs(in_period, &case), None, "{name}");
        assert_eq!(differs(*rule, &case), Some("a section's tag"), "{name}");
    }
}

/// The program draws what each wrong rule differs in: each is seen within so many cases.
#[test]
fn drawn_cases_see_each_wrong_rule() {
    if !at_hand() {
        return;
    }
    let judges = WRONG.iter().map(|&(name, rule)| (name, Judge::by(rule)));
    drawn::each_is_seen(8000, judges.collect(), |_| true);
}
