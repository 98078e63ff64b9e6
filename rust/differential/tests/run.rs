//! The program itself: short runs agree, and the same seed tells the same.

use std::process::{Command, Output};
use std::sync::LazyLock;

fn run(words: &[&str]) -> Output {
    let mut program = Command::new(env!("CARGO_BIN_EXE_differential"));
    program.args(words).output().expect("the program runs")
}

fn told(words: &[&str]) -> String {
    let output = run(words);
    let told = String::from_utf8(output.stdout).expect("text");
    assert!(output.status.success(), "{told}");
    told
}

#[test]
fn a_short_run_agrees_and_is_told_alike_twice() {
    if !oracle::AT_HAND {
        eprintln!("{}", oracle::NOT_AT_HAND);
        return;
    }
    let words = ["--cases", "4000", "--roots", "40000", "--seed", "9"];
    let first = told(&words);
    assert!(first.ends_with("mismatches 0\n"), "{first}");
    assert!(first.contains("\nthe gas default is the original's default\n"));
    assert_eq!(first, told(&words));
    let other = told(&["--cases", "4000", "--roots", "40000", "--seed", "10"]);
    assert_ne!(first, other);
}

/// What one longer run tells, for all tests that count what occurs in it.
static MANY: LazyLock<String> = LazyLock::new(|| told(&["--cases", "9000", "--seed", "11"]));

/// How often something occurred, by its line.
fn count(told: &str, name: &str) -> u64 {
    // A name that goes on is another's.
    let mut lines = told.lines().filter_map(|line| line.strip_prefix(name));
    let count = lines.find_map(|count| count.trim().parse().ok());
    count.unwrap_or_else(|| panic!("no count of {name} in {told}"))
}

#[test]
fn tables_are_cut_and_a_run_without_any_fails() {
    if !oracle::AT_HAND {
        return;
    }
    let many = &*MANY;
    let cut = count(many, "tables cut, all sheets accepted");
    let sheets = count(many, "sheets accepted");
    assert!(cut > 100 && sheets > 10 * cut, "{many}");
    assert!(count(many, "tables cut into sheets, refused ones too") > cut);
    assert!(count(many, "sheets, refused ones too") > sheets);
    for refusal in ["refusal 16", "refusal 28"] {
        assert!(count(many, refusal) > 0, "{many}");
    }

    let output = run(&["--cases", "10"]);
    let few = String::from_utf8(output.stdout).expect("text");
    assert_eq!(output.status.code(), Some(1));
    assert!(few.contains("mismatches 0\n"), "{few}");
    for missing in [
        "no table was cut with all of its sheets accepted",
        "no sheet was accepted",
        "refusal 28 did not occur",
    ] {
        assert!(
            few.contains(&format!("too few cases: {missing}\n")),
            "{few}"
        );
    }
}

#[test]
fn careful_tables_are_judged_and_a_run_without_any_fails() {
    if !oracle::AT_HAND {
        return;
    }
    let many = &*MANY;
    for name in [
        "careful tables built",
        "careful tables cut, all sheets accepted",
        "careful steps of growth",
    ] {
        assert!(count(many, name) > 100, "{many}");
    }
    let split = count(many, "in these: sections that the original splits");
    let kept = count(many, "in these: split by the careful rule, too");
    let whole = count(many, "in these: left whole by it");
    let above = count(many, "in these: of a ratio above 1");
    assert_eq!(split, kept + whole);
    assert!(kept > 100 && above > 1000 && whole >= above, "{many}");
    for ratio in [
        "not a number",
        "infinite",
        "below 0",
        "exactly 0",
        "above 0, below 1",
        "exactly 1",
        "just above 1",
        "well above 1",
    ] {
        let name = format!("careful by itself, ratio {ratio}");
        assert!(count(many, &name) > 0, "{many}");
    }

    let output = run(&["--cases", "10"]);
    let few = String::from_utf8(output.stdout).expect("text");
    for missing in [
        "no careful table was cut",
        "no careful parabola had a ratio exactly 1",
    ] {
        let line = format!("too few cases: {missing}\n");
        assert!(few.contains(&line), "{few}");
    }
}

#[test]
fn safe_tables_are_judged_and_a_run_without_any_fails() {
    if !oracle::AT_HAND {
        return;
    }
    let many = &*MANY;
    for (name, least) in [
        ("safe tables built", 300),
        ("safe tables cut, all sheets accepted", 100),
        ("safe steps of growth", 300),
        ("safe ones of all these without positivity", 300),
        ("safe steps from a node of the rule's own", 30),
        ("in safe ones: sections at zero throughout", 300),
        ("in safe ones: parabolas split", 300),
        ("in safe ones: that the original leaves whole", 30),
        ("in safe ones: left whole that it splits", 100),
        ("in safe ones: level parabolas", 300),
        ("in safe ones: level fourth kinds", 300),
        ("safe by itself, ratio exactly 1e-12", 5),
        ("safe by itself, ratio exactly 1", 1),
        ("safe by itself, fourth exactly 1e-12", 3),
        ("safe by itself, discriminant not a number", 3),
        ("refusal 29", 50),
    ] {
        assert!(count(many, name) >= least, "{name}: {many}");
    }

    let output = run(&["--cases", "10"]);
    let few = String::from_utf8(output.stdout).expect("text");
    for missing in [
        "refusal 29 did not occur",
        "none of this: safe tables cut, all sheets accepted",
        "none of this: safe by itself, ratio exactly 1e-12",
    ] {
        let line = format!("too few cases: {missing}\n");
        assert!(few.contains(&line), "{few}");
    }
}

#[test]
fn records_are_judged_at_their_knots_and_a_run_without_any_fails() {
    if !oracle::AT_HAND {
        return;
    }
    let many = &*MANY;
    for (name, least) in [
        ("left price infinite", 100),
        ("left price not a number", 1000),
        ("right price infinite", 100),
        ("right price not a number", 1000),
        ("total after it infinite", 1000),
        ("total after it not a number", 100),
        ("held last periods", 1000),
        ("periods of two points", 300),
        ("the next starts from another", 1000),
    ] {
        let name = format!("in records: {name}");
        assert!(count(many, &name) >= least, "{name}: {many}");
    }

    let output = run(&["--cases", "10"]);
    let few = String::from_utf8(output.stdout).expect("text");
    let line = "too few cases: none of this: in records: left price infinite\n";
    assert!(few.contains(line), "{few}");
}

#[test]
fn strips_and_columns_are_judged_and_a_run_without_any_fails() {
    if !oracle::AT_HAND {
        return;
    }
    let many = &*MANY;
    for (name, least) in [
        ("columns written with a curve", 5000),
        ("columns too short for their curve", 5),
        ("in columns: entries infinite", 1000),
        ("in columns: entries not a number", 1000),
        ("in columns: last entry only the tail's", 300),
        ("in strips: within one period", 3000),
        ("in strips: across knots", 10_000),
        ("in strips: an end outside the knots", 5000),
        ("in strips: refused for equal ends", 5000),
        ("in strips: refused for falling ends", 5000),
        ("in strips: refused at the second end", 1000),
        ("several strips at once", 5000),
        ("several strips at once, refused", 5000),
        ("runs of several strips", 5000),
        ("runs of several strips, refused", 5000),
        ("strips between two places", 5000),
        ("strips to a place past the last", 500),
        ("strips between places, column too short", 5000),
        ("refusal 18", 20_000),
    ] {
        assert!(count(many, name) >= least, "{name}: {many}");
    }

    let output = run(&["--cases", "10"]);
    let few = String::from_utf8(output.stdout).expect("text");
    for missing in [
        "none of this: columns too short for their curve",
        "none of this: in columns: entries infinite",
    ] {
        let line = format!("too few cases: {missing}\n");
        assert!(few.contains(&line), "{few}");
    }
}

#[test]
fn answers_that_are_not_finite_are_judged_and_a_run_without_any_fails() {
    if !oracle::AT_HAND {
        return;
    }
    let many = &*MANY;
    for (name, least) in [
        ("by the mark", 50_000),
        ("by the mark: values", 5000),
        ("by the mark: primitives", 5000),
        ("by the mark: strips", 5000),
        ("by the mark: strips between two places", 500),
        ("by the mark: entries of columns read", 5000),
        ("by the mark, too: values of sections", 5000),
        ("by the mark, too: primitives of sections", 5000),
        ("of these: infinite", 10_000),
        ("of these: not a number", 10_000),
        ("of these: strips of two finite totals", 30),
        ("several queries, the first by the mark", 3000),
        ("several strips, the first by the mark", 3000),
        ("runs of several, the first by the mark", 3000),
        ("several queries at once", 10_000),
        ("several queries at once, refused", 10_000),
        ("refusal 21", 50_000),
    ] {
        assert!(count(many, name) >= least, "{name}: {many}");
    }
    let parts = [
        "by the mark: values",
        "by the mark: primitives",
        "by the mark: strips",
        "by the mark: strips between two places",
        "by the mark: entries of columns read",
        "by the mark, too: values of sections",
        "by the mark, too: primitives of sections",
    ];
    let all: u64 = parts.into_iter().map(|name| count(many, name)).sum();
    assert_eq!(count(many, "by the mark"), all);

    let output = run(&["--cases", "2"]);
    let few = String::from_utf8(output.stdout).expect("text");
    assert_eq!(output.status.code(), Some(1));
    let line = "too few cases: none of this: of these: strips of two finite totals\n";
    assert!(few.contains(line), "{few}");
}

#[test]
fn delivery_months_are_judged_and_a_run_without_any_fails() {
    if !oracle::AT_HAND {
        return;
    }
    let many = &*MANY;
    let faults = [
        ("in months: not 1, 3 or 12 to a period", 5),
        ("in months: outside the calendar", 20),
        ("in months: the last before the first", 5),
        ("in months: no period starts so", 5),
        ("in months: no period ends so", 5),
    ];
    for (name, least) in faults.into_iter().chain([
        ("in months: knots told", 150),
        ("in months: entries too few for the knots", 10),
        ("curves built by months", 60),
        ("curves built by quarters", 15),
        ("curves built by years", 15),
        ("builds of whole periods refused", 40),
        ("in these curves: a 29 February", 60),
        ("in these curves: an end of the calendar", 20),
        ("in these curves: held last periods", 20),
        ("in these curves: seams", 20),
        ("refusal 19", 100),
    ]) {
        assert!(count(many, name) >= least, "{name}: {many}");
    }
    let asked = count(many, "delivery months asked, refused ones too");
    let refused: u64 = faults.into_iter().map(|(name, _)| count(many, name)).sum();
    assert_eq!(
        count(many, "refusal 19"),
        2 * refused,
        "once for knots and once for a build"
    );
    let built = [
        "curves built by months",
        "curves built by quarters",
        "curves built by years",
        "builds of whole periods refused",
    ];
    let whole: u64 = built.into_iter().map(|name| count(many, name)).sum();
    assert_eq!(asked, refused + whole);

    let output = run(&["--cases", "10"]);
    let few = String::from_utf8(output.stdout).expect("text");
    for missing in [
        "refusal 19 did not occur",
        "none of this: curves built by quarters",
    ] {
        let line = format!("too few cases: {missing}\n");
        assert!(few.contains(&line), "{few}");
    }
}

#[test]
fn without_the_original_it_says_so() {
    if !oracle::AT_HAND {
        assert_eq!(
            told(&["--cases", "10"]),
            format!("{}\n", oracle::NOT_AT_HAND)
        );
    }
}

#[test]
fn words_that_it_does_not_know_are_refused() {
    for words in [
        &["--cases"][..],
        &["--cases", "many"],
        &["--seconds", "-1"],
        &["1"],
    ] {
        let output = run(words);
        assert_eq!(output.status.code(), Some(2));
        assert!(output.stdout.is_empty());
    }
}
