//! Requests by lines, as a caller sees them.
#![cfg(original)]

use oracle::asking::Asked;

const ONE: &str = "3ff0000000000000";
const TWO: &str = "4000000000000000";
const THREE: &str = "4008000000000000";
const FOUR: &str = "4010000000000000";

/// p1, p2 and p3 as text.
#[test]
fn a_build_and_its_queries() {
    let mut asked = Asked::default();
    let mut ask = |request: String| asked.answer(&request).expect("a request");

    let two = ask(format!("build 0 0 0 0 2 0 {TWO} 2 4022000000000000 {TWO}"));
    let lines: Vec<&str> = two.lines().collect();
    assert_eq!(lines.len(), 6);
    assert_eq!(lines[0], "b 0 1");
    assert!(lines[1].starts_with("t 100 0 0 "), "{}", lines[1]);
    assert_eq!(lines[2], format!("k {TWO} {TWO} {FOUR}"));
    assert_eq!(lines[3], format!("e {TWO} 0 0"));
    assert_eq!(lines[4], "n 0 0");
    assert_eq!(lines[5], format!("u 0 {FOUR}"));
    assert_eq!(ask(format!("query 0 {ONE}")), format!("q 0 {TWO} {TWO}\n"));
    assert_eq!(ask(format!("query 0 {TWO}")), format!("q 0 {TWO} {FOUR}\n"));

    let table = format!("3 0 {ONE} {TWO} 3 0 {ONE} {THREE}");
    let three = ask(format!("build 0 0 0 {ONE} {table}"));
    let nodes = "n 3fe0000000000000 4000000000000000 400c000000000000";
    let column = format!("u 0 {ONE} {FOUR}");
    assert!(three.lines().rev().take(2).eq([&column, nodes]));
    let minus = "bff0000000000000";
    assert_eq!(ask(format!("query 0 {minus}")), "q d 0 0\n");
    let value = ask(format!("query 1 {minus}"));
    assert!(value.starts_with(&format!("q 0 {TWO} ")), "{value}");
    assert_eq!(ask(format!("derivative {ONE}")), "d e 0\n");
    assert_eq!(ask(format!("strip 0 0 {TWO}")), format!("p 0 {TWO}\n"));
    assert_eq!(
        ask(format!("strip 0 {ONE} {TWO}")),
        format!("p 0 {THREE}\n")
    );
    assert_eq!(ask(format!("strip 1 {TWO} {ONE}")), "p 12 0\n");

    let seam = |count: usize| format!("build 0 0 0 {ONE} {table} {count} {TWO}");
    assert!(ask(seam(1)).starts_with("b 0 2\n"));
    assert_eq!(ask(seam(2)), "b 8 0\n");
}

#[test]
fn the_default_is_told() {
    let told = Asked::default().answer("default");
    assert_eq!(
        told.as_deref(),
        Ok("m 1 3fd3333333333333 3fe6666666666666\n")
    );
}

#[test]
fn growth_needs_the_curve_before() {
    let mut asked = Asked::default();
    let grow = |points: usize| {
        let knots = ["0", ONE, TWO][..points].join(" ");
        let averages = ["0", ONE, THREE][..points].join(" ");
        format!("grow 0 0 {ONE} 1 3 {points} {knots} {points} {averages}")
    };
    assert_eq!(asked.answer(&grow(3)).as_deref(), Ok("b 9 0\n"));
    let first = asked.answer(&grow(2)).expect("a request");
    assert!(first.starts_with("b 0 1\nt 100 "), "{first}");
    let second = asked.answer(&grow(3)).expect("a request");
    assert!(second.starts_with("b 0 2\nt 2000 "), "{second}");
    // The knots are those of the table that is grown into, not of the one before.
    let knots = second.lines().filter(|line| line.starts_with('k'));
    let half = "3fe0000000000000";
    let seven_halves = "400c000000000000";
    let due = [
        format!("k {half} {TWO} {ONE}"),
        format!("k {TWO} {seven_halves} {FOUR}"),
    ];
    assert!(knots.eq(due), "{second}");
    assert_eq!(asked.answer("forget").as_deref(), Ok("f\n"));
    assert_eq!(asked.answer(&grow(3)).as_deref(), Ok("b 9 0\n"));
}

#[test]
fn what_is_no_request_is_said_to_be_none() {
    let mut asked = Asked::default();
    for line in [
        "",
        "what",
        "default 1",
        "root",
        "root g",
        "root 1 2",
        "root A",
        "at 1",
        "section a",
        "section 1 0 0",
        "query 0 0",
        "strip 0 0 1",
        "build 2",
    ] {
        assert!(asked.answer(line).is_err(), "{line}");
    }
}
