//! That the judge of the safe mode would see a wrong rule: what it finds right by the rule as it is written, it finds wrong by another,
//! on tables and sections made for it and among the cases that the program draws.

/// The safe rule with some part changed.
macro_rules! wrong {
    ($($part:ident: $other:expr),*) => {
        differential::safe::Rule { $($part: $other,)* ..differential::safe::RULE }
    };
}

mod drawn;
mod wrong;

use differential::case::{Case, Queries, Room};
use differential::judge::Judge;
use differential::safe::{RULE, Rule};
use havgrunel::Split;
use wrong::{growing, in_sheets, table, whole, wrong};

fn at_hand() -> bool {
    if !oracle::AT_HAND {
        eprintln!("{}", oracle::NOT_AT_HAND);
    }
    oracle::AT_HAND
}

fn differs(rule: Rule, case: &Case) -> bool {
    Judge::safely_by(rule).case(case).is_err()
}

#[test]
fn each_part_of_the_rule_is_seen() {
    if !at_hand() {
        return;
    }
    for (name, rule, case) in wrong() {
        assert!(!differs(RULE, &case), "{name}");
        assert!(differs(rule, &case), "{name}");
    }
}

#[test]
fn each_way_to_a_curve_is_judged() {
    if !at_hand() {
        return;
    }
    let shaped = wrong!(at_zero: |_, _| false);
    let let_by = wrong!(refuses: |_| false);
    let (zero, below) = ([0.0, 5.0, 0.0, 1.0], [0.0, 5.0, -1.0, 1.0]);
    let both = [Split::Safe; 2];
    for (rule, case) in [
        (shaped, whole(zero)),
        (shaped, in_sheets(zero)),
        (shaped, growing(zero, both)),
        (let_by, whole(below)),
        (let_by, in_sheets(below)),
        (let_by, growing(below, both)),
    ] {
        assert!(!differs(RULE, &case));
        assert!(differs(rule, &case));
    }
    // The other modes, and the safe one without positivity, are judged by the original and its own rule alone.
    let mut free = table(below, Split::Safe);
    free.settings.positivity = false;
    for table in [
        table(below, Split::Original),
        table(below, Split::Careful),
        free,
    ] {
        let case = Case::Build(table, Room::default(), Queries::default());
        let wrong = wrong!(refuses: |_| true, at_zero: |_, _| true);
        assert!(!differs(wrong, &case));
    }
}

/// A curve goes on from the node on which a safe section ends, which is the original's or not, in whatever mode.
#[test]
fn a_curve_grows_from_one_of_any_mode() {
    if !at_hand() {
        return;
    }
    let modes = [Split::Original, Split::Careful, Split::Safe];
    let mut judge = Judge::default();
    for first in modes {
        for second in modes {
            let case = growing([0.0, 0.0, 5.0, 1.0], [first, second]);
            assert!(judge.case(&case).is_ok(), "{first:?}, {second:?}");
        }
    }
    // From the zero of the safe curve the three go on otherwise than from the original's node.
    assert_eq!(judge.counts.safe.seams, 3);
}

#[test]
fn what_the_rule_does_is_counted() {
    if !at_hand() {
        return;
    }
    let mut judge = Judge::default();
    assert!(judge.case(&whole([0.0, 50.0, 1.0e-30, 60.0])).is_ok());
    let safe = &judge.counts.safe;
    assert_eq!((safe.builds, safe.sections.zero), (1, 0));
    assert_eq!((safe.sections.level, safe.sections.other_level), (1, 1));
    assert!(judge.case(&in_sheets([0.0, 50.0, 0.0, 60.0])).is_ok());
    let safe = &judge.counts.safe;
    assert_eq!((safe.cut, safe.sections.zero), (1, 1));
    assert!(judge.case(&whole([0.0, 50.0, -1.0, 60.0])).is_ok());
    assert_eq!(judge.counts.safe.builds, 1);
}

fn is_safe(case: &Case) -> bool {
    match case {
        Case::Build(table, ..) => table.split == Split::Safe,
        Case::Growth { steps, .. } => steps.iter().any(|step| step.split == Split::Safe),
        Case::Reading(reading) => reading.table.split == Split::Safe,
        Case::Sheets(sheets) => sheets.table.split == Split::Safe,
        Case::Months(months) => months.table.split == Split::Safe,
        Case::Section(single) => single.split == Split::Safe,
        Case::Record(..) => false,
    }
}

/// The program draws what each wrong rule differs in: each is seen within so many cases.
#[test]
fn drawn_cases_see_each_wrong_rule() {
    if !at_hand() {
        return;
    }
    let wrong = wrong();
    let judges = wrong
        .iter()
        .map(|(name, rule, _)| (*name, Judge::safely_by(*rule)));
    drawn::each_is_seen(8000, judges.collect(), is_safe);
}
