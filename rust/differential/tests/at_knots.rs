//! That the judge would see a library whose records say something wrong behind their sections' own numbers. What the library says is found
//! right by the rule that is due, and wrong by each other rule, on tables made for it and among the cases that the program draws.

mod drawn;

use differential::at_knots::{Asked, Rule, own};
use differential::case::{Case, Previous, Queries, Room, Sheets, Step, Table};
use differential::judge::Judge;
use havgrunel::Split;
use oracle::Settings;

const SETTINGS: Settings = Settings {
    quadraticity: 0.0,
    monotonicity: 0.7,
    positivity: true,
};

const MODES: [Split; 3] = [Split::Original, Split::Careful, Split::Safe];

fn at_hand() -> bool {
    if !oracle::AT_HAND {
        eprintln!("{}", oracle::NOT_AT_HAND);
    }
    oracle::AT_HAND
}

/// A table of months by these averages.
fn table(y: &[f64], split: Split) -> Table {
    Table {
        settings: SETTINGS,
        split,
        hold: false,
        seam: None,
        x: (0..y.len() as u32).map(f64::from).collect(),
        y: y.to_vec(),
    }
}

fn whole(y: &[f64], split: Split) -> Case {
    Case::Build(table(y, split), Room::default(), Queries::default())
}

fn held(y: &[f64], split: Split) -> Case {
    let table = Table {
        hold: true,
        ..table(y, split)
    };
    Case::Build(table, Room::default(), Queries::default())
}

fn in_sheets(y: &[f64], split: Split) -> Case {
    Case::Sheets(Sheets {
        table: table(y, split),
        room: Room::default(),
        cuts: (1..y.len() - 1).collect(),
        others: vec![1],
        order: (0..y.len() - 1).rev().collect(),
        given: [0.0; 3],
    })
}

/// Grown from two points on, and held until the last.
fn growing(y: &[f64], split: Split) -> Case {
    let Table { x, y, .. } = table(y, split);
    let step = |points: usize| Step {
        knots: points,
        averages: points,
        settings: SETTINGS,
        split,
        localisation: 1,
        final_size: y.len(),
        previous: Previous::Last,
        room: Room::default(),
        queries: Queries::default(),
    };
    let steps = (2..=y.len()).map(step).collect();
    Case::Growth { x, y, steps }
}

fn exchanged(asked: &Asked<'_>) -> [f64; 3] {
    let [left, right, total] = own(asked);
    [right, left, total]
}

fn right_by_the_next(asked: &Asked<'_>) -> [f64; 3] {
    let [left, right, total] = own(asked);
    let next = asked.all.get(asked.place + 1);
    [left, next.map_or(right, |next| next[0]), total]
}

fn left_by_the_one_before(asked: &Asked<'_>) -> [f64; 3] {
    let [left, right, total] = own(asked);
    let before = asked.place.checked_sub(1);
    [
        before.map_or(left, |place| asked.all[place][1]),
        right,
        total,
    ]
}

fn total_before(asked: &Asked<'_>) -> [f64; 3] {
    let [left, right, _] = own(asked);
    let before = asked.place.checked_sub(1);
    [left, right, before.map_or(0.0, |place| asked.all[place][2])]
}

/// None of the three where this holds.
fn none_if(none: bool, asked: &Asked<'_>) -> [f64; 3] {
    if none { [0.0; 3] } else { own(asked) }
}

/// A rule that is wrong, by its name.
type Wrong = (&'static str, Rule);

const EXCHANGED: Wrong = ("left and right exchanged", exchanged);
const BY_THE_NEXT: Wrong = ("the right price by the next section", right_by_the_next);
const BY_THE_ONE_BEFORE: Wrong = (
    "the left price by the section before",
    left_by_the_one_before,
);
const BEFORE: Wrong = ("the total before the period", total_before);
const HELD: Wrong = ("a held section without the three", |asked| {
    none_if(asked.is_held(), asked)
});
const ALONE: Wrong = ("a two-point curve without the three", |asked| {
    none_if(asked.is_alone(), asked)
});
const NUMBERS: Wrong = ("zero where there is no number", |asked| {
    own(asked).map(|told| if told.is_nan() { 0.0 } else { told })
});
const FINITE: Wrong = ("the largest number where it is infinite", |asked| {
    own(asked).map(|told| told.clamp(f64::MIN, f64::MAX))
});

const WRONG: [Wrong; 8] = [
    EXCHANGED,
    BY_THE_NEXT,
    BY_THE_ONE_BEFORE,
    BEFORE,
    HELD,
    ALONE,
    NUMBERS,
    FINITE,
];

const FALLING: [f64; 4] = [0.0, 5.0, 3.0, 1.0];
/// The last but one period has no price at its left knot by the original's rule.
const AT_ZERO: [f64; 4] = [0.0, 2.0, 0.0, 2.0];
const LARGE: [f64; 4] = [0.0, 1.0e308, 1.0e308, 1.0];
const TWO: [f64; 2] = [0.0, 2.0];

fn judged(rule: Rule, case: &Case) -> Option<&'static str> {
    let judged = Judge::at_knots_by(rule).case(case);
    judged.err().map(|mismatch| mismatch.part)
}

/// That the right rule finds a case right, and a wrong one differs in this part of a record.
fn seen((name, rule): Wrong, case: &Case, part: &str) {
    assert_eq!(judged(own, case), None, "{name}\n{case}");
    assert_eq!(judged(rule, case), Some(part), "{name}\n{case}");
}

const LEFT: &str = "a price at a left knot";
const RIGHT: &str = "a price at a right knot";
const TOTAL: &str = "a total after a period";

#[test]
fn each_wrong_record_is_seen() {
    if !at_hand() {
        return;
    }
    for split in MODES {
        for case in [
            whole(&FALLING, split),
            held(&FALLING, split),
            in_sheets(&FALLING, split),
            growing(&FALLING, split),
        ] {
            seen(EXCHANGED, &case, LEFT);
            seen(BEFORE, &case, TOTAL);
        }
        // A held period does not start from the price on which the one before it ends.
        for case in [held(&FALLING, split), growing(&FALLING, split)] {
            seen(BY_THE_NEXT, &case, RIGHT);
            seen(BY_THE_ONE_BEFORE, &case, LEFT);
            seen(HELD, &case, LEFT);
        }
        for case in [
            whole(&TWO, split),
            held(&TWO, split),
            growing(&FALLING, split),
        ] {
            seen(ALONE, &case, LEFT);
            seen(BEFORE, &case, TOTAL);
        }
        for case in [whole(&LARGE, split), in_sheets(&LARGE, split)] {
            seen(FINITE, &case, TOTAL);
        }
    }
    let no_number = [
        whole(&AT_ZERO, Split::Original),
        in_sheets(&AT_ZERO, Split::Careful),
    ];
    for case in no_number {
        seen(NUMBERS, &case, LEFT);
    }
}

/// The program draws what each wrong rule differs in: each is seen within so many cases.
#[test]
fn drawn_cases_see_each_wrong_record() {
    if !at_hand() {
        return;
    }
    let judge = |&(name, rule): &Wrong| (name, Judge::at_knots_by(rule));
    drawn::each_is_seen(2000, WRONG.iter().map(judge).collect(), |_| true);
}
