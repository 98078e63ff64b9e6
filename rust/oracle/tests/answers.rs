//! The file of answers: the same each time, well formed, and complete.
#![cfg(original)]

use std::collections::{BTreeMap, BTreeSet};

use oracle::asking::Asked;
use oracle::{answers, legal_tags, words};

fn whole() -> String {
    let parts = [
        answers::default(),
        answers::roots(),
        answers::sections(),
        answers::curves(),
        answers::growth(),
    ];
    parts.map(|part| part.lines).concat()
}

#[test]
fn the_same_each_time_and_small() {
    let once = whole();
    assert_eq!(once, whole());
    // The program that reads it has room for 1,048,576 bytes, and lines are yet to come.
    assert!(once.len() < 900_000, "{} bytes", once.len());
}

#[test]
fn every_line_keeps_the_format() {
    let text = whole();
    assert!(text.is_ascii() && text.ends_with('\n'));
    let mut before = "";
    for line in text.lines() {
        let (letter, rest) = line.split_at(1);
        let mut count = 0;
        for word in rest.split(' ').skip(1) {
            assert!(words::read(word).is_some(), "{line}");
            assert!(word == "0" || !word.starts_with('0'), "{line}");
            count += 1;
        }
        assert!(rest.starts_with(' ') || letter == "f", "{line}");
        match letter {
            "r" => assert_eq!(count, 2),
            "s" => assert!((4..=17).contains(&count), "{line}"),
            "t" => assert_eq!(count, 26),
            "m" | "x" | "k" | "e" => assert_eq!(count, 3),
            // As many as 32 points have.
            "c" => assert!((6..=72).contains(&count), "{line}"),
            "g" => assert!((7..=71).contains(&count), "{line}"),
            "f" => assert_eq!(rest, ""),
            "b" => assert_eq!(count, 2),
            "n" | "u" => assert!((2..=32).contains(&count), "{line}"),
            "a" | "p" => assert_eq!(count, 5),
            _ => panic!("{line}"),
        }
        let follows = match letter {
            "t" => ["s", "b", "k"].contains(&before),
            "b" => ["c", "g"].contains(&before),
            "k" => before == "t",
            "e" => before == "k",
            "n" => before == "e",
            "u" => before == "n",
            "p" => ["u", "p"].contains(&before),
            _ => {
                let open = ["s", "c", "g", "t", "k", "e", "n", "u"];
                !open.contains(&before) || (before, letter) == ("t", "x")
            }
        };
        assert!(follows, "{letter} after {before}");
        before = letter;
    }
}

#[test]
fn every_tag_occurs_and_is_asked() {
    let sections = answers::sections().lines;
    let mut tag = 0;
    let mut asked = BTreeMap::new();
    for line in sections.lines() {
        let mut parts = line.split(' ');
        match parts.next() {
            Some("t") => tag = parts.next().and_then(words::read).expect("a tag"),
            Some("x") => *asked.entry(tag as u16).or_insert(0) += 1,
            _ => {}
        }
    }
    assert!(asked.keys().copied().eq(legal_tags()));
    for (tag, count) in asked {
        assert!(count >= 30, "tag {tag:04x} is asked {count} times");
    }
}

/// The words at a place of the lines with a letter.
fn told(lines: &str, letter: &str, place: usize) -> BTreeSet<u64> {
    let of_letter = lines.lines().map(|line| line.split(' ').collect());
    of_letter
        .filter(|words: &Vec<&str>| words[0] == letter)
        .map(|words| words::read(words[place]).expect("a word"))
        .collect()
}

/// How many lines have a letter.
fn lines_of(lines: &str, letter: char) -> usize {
    let of_letter = lines.lines().filter(|line| line.starts_with(letter));
    of_letter.count()
}

/// A section that is made by itself has no period, and so no knots.
#[test]
fn knots_are_told_of_every_section_of_a_curve() {
    for part in [answers::curves(), answers::growth()] {
        let sections = lines_of(&part.lines, 't');
        assert!(sections > 0);
        assert_eq!(lines_of(&part.lines, 'k'), sections);
    }
    assert_eq!(lines_of(&answers::sections().lines, 'k'), 0);
}

/// What a line's words are, as floats.
fn floats(words: &[&str]) -> Vec<f64> {
    let read = |word: &&str| f64::from_bits(words::read(word).expect("a word"));
    words.iter().map(read).collect()
}

/// The sort of a strip of a curve with these knots: where its two ends lie, whether they rise, and whether outside is allowed.
fn sort_of(x: &[f64], allow: bool, a: f64, b: f64) -> &'static str {
    let (first, last) = (x[0], x[x.len() - 1]);
    let period = |q: f64| x.windows(2).position(|pair| pair[0] <= q && q < pair[1]);
    let outside = |q: f64| q < first || last < q;
    match () {
        () if a.is_nan() && outside(b) => "no number, outside",
        () if a.is_nan() => "from no number",
        () if b.is_nan() && outside(a) => "outside, no number",
        () if b.is_nan() => "to no number",
        () if !allow && outside(a) && outside(b) => "outside, not allowed",
        () if !allow && outside(a) => "from outside, not allowed",
        () if !allow && outside(b) => "to outside, not allowed",
        () if a == b && x.contains(&a) => "of no length, at a knot",
        () if a == b => "of no length",
        () if b < a && outside(a) => "reversed, outside",
        () if b < a => "reversed",
        () if x.contains(&a) && x.contains(&b) => "knot to knot",
        () if b == f64::INFINITY => "without end",
        () if last < a => "beyond the end",
        () if outside(a) && outside(b) => "around all",
        () if outside(a) => "from before the first knot",
        () if outside(b) => "to behind the last knot",
        () if period(a) == period(b) => "in one period",
        () => "across knots",
    }
}

/// Each curve has its column, of which a strip between knots is the difference, and three strips; those are of every sort.
#[test]
fn strips_are_of_every_sort() {
    for part in [answers::curves(), answers::growth()] {
        let (mut knots, mut column) = (Vec::new(), Vec::new());
        let mut sorts = BTreeMap::new();
        let mut refusals = BTreeSet::new();
        for line in part.lines.lines() {
            let words: Vec<&str> = line.split(' ').collect();
            let list = match words[0] {
                "c" => 5,
                "g" => 6,
                "u" => {
                    column = floats(&words[1..]);
                    assert_eq!(column.len(), knots.len());
                    continue;
                }
                "p" => {
                    let (allow, ends) = (words[1] == "1", floats(&words[2..4]));
                    let sort = sort_of(&knots, allow, ends[0], ends[1]);
                    *sorts.entry(sort).or_insert(0) += 1;
                    refusals.insert(words::read(words[4]).expect("a refusal or 0"));
                    let place = |end: f64| knots.iter().position(|&knot| knot == end);
                    if let ("0", Some(i), Some(j)) = (words[4], place(ends[0]), place(ends[1])) {
                        let price = (column[j] - column[i]) / (knots[j] - knots[i]);
                        assert!(words::same(price, floats(&words[5..])[0]), "{line}");
                    }
                    continue;
                }
                _ => continue,
            };
            let count = words::read(words[list]).expect("a count") as usize;
            knots = floats(&words[list + 1..][..count]);
        }
        assert_eq!(sorts.len(), 19, "{sorts:?}");
        assert!(sorts.values().all(|&count| count >= 3), "{sorts:?}");
        assert!(refusals.into_iter().eq([0, 12, 13, 18]));
        let curves = lines_of(&part.lines, 'n');
        assert_eq!(lines_of(&part.lines, 'u'), curves);
        assert_eq!(lines_of(&part.lines, 'p'), 3 * curves);
    }
}

#[test]
fn curves_have_every_kind_and_every_refusal() {
    let curves = answers::curves().lines;
    // With positivity asked for, the fourth convex kind is always the one with a
    // minimum, and without it there is no quadratic one with a minimum.
    let never = [0x4500, 0x5500];
    let made = legal_tags().into_iter().filter(|tag| !never.contains(tag));
    assert!(told(&curves, "t", 1).into_iter().eq(made.map(u64::from)));
    assert!(told(&curves, "b", 1).into_iter().eq(0..=8));
    assert!(told(&curves, "b", 2).into_iter().eq(0..=11));
    assert!(told(&curves, "a", 3).into_iter().eq([0, 12, 13]));
}

/// A growth's words, its refusal, and the lines that tell its curve.
struct Growth<'a> {
    words: Vec<&'a str>,
    refusal: u64,
    told: &'a str,
}

impl Growth<'_> {
    fn count(&self, place: usize) -> u64 {
        words::read(self.words[place]).expect("a word")
    }

    fn in_window(&self) -> bool {
        self.count(3) + 1 == self.count(5)
    }

    fn held(&self) -> bool {
        self.count(4) != self.count(5)
    }

    /// What a build of the same table tells, with no curve before it.
    fn built(&self) -> String {
        let (words, hold) = (&self.words, u8::from(self.held()));
        let lists = words[5..].join(" ");
        let request = format!(
            "build {} {hold} {} {} {lists}",
            words[0], words[1], words[2]
        );
        Asked::default().answer(&request).expect("a request")
    }
}

fn growths(lines: &str) -> Vec<Growth<'_>> {
    let mut growths = Vec::new();
    let starts = lines.match_indices("\ng ").map(|(at, _)| at + 1);
    for start in std::iter::once(0).chain(starts) {
        let (line, rest) = lines[start..].split_once('\n').expect("an answer");
        let ends = ["\np ", "\na ", "\ng ", "\nc ", "\nf\n"].map(|next| rest.find(next));
        let end = ends
            .into_iter()
            .flatten()
            .min()
            .map_or(rest.len(), |at| at + 1);
        let told = &rest[..end];
        let refusal = told.split(' ').nth(1).and_then(words::read);
        growths.push(Growth {
            words: line.split(' ').skip(1).collect(),
            refusal: refusal.expect("a refusal or 0"),
            told,
        });
    }
    growths
}

#[test]
fn growths_are_of_every_sort() {
    let lines = answers::growth().lines;
    let growths = growths(&lines);
    let of = |window: bool| growths.iter().filter(move |g| g.in_window() == window);
    let refusals = |window| of(window).map(|g| g.refusal).collect::<BTreeSet<u64>>();
    assert!(refusals(true).into_iter().eq(0..=7));
    assert!(refusals(false).into_iter().eq(0..=9));

    // Windows that make a curve, by points and by whether it is held.
    let made = |window| of(window).filter(|g| g.refusal == 0);
    let windows: BTreeSet<_> = made(true).map(|g| (g.count(5), g.held())).collect();
    let wanted = [
        (2, true),
        (2, false),
        (3, false),
        (4, true),
        (6, false),
        (9, true),
    ];
    assert!(
        wanted.iter().all(|window| windows.contains(window)),
        "{windows:?}"
    );
    let grown: BTreeSet<_> = made(false).map(|g| g.count(5)).collect();
    assert!(grown.into_iter().eq(2..=12));

    // In a first window nothing is carried over; past it what is carried over
    // shows in most curves.
    assert!(made(true).all(|g| g.built() == g.told));
    let other = made(false).filter(|g| g.built() != g.told).count();
    assert!(2 * other > made(false).count(), "{other} curves");
}

/// Asking again by the request lines gives the file back.
#[test]
fn asking_gives_the_same_lines() {
    let mut asked = Asked::default();
    let mut again = String::new();
    let text = whole();
    for line in text.lines() {
        let words: Vec<&str> = line.split(' ').collect();
        let request = match words[0] {
            "m" => String::from("default"),
            "r" => format!("root {}", words[1]),
            "s" => {
                again += &format!("{line}\n");
                format!("section {}", words[1..].join(" "))
            }
            "x" => format!("at {}", words[1]),
            "c" => {
                again += &format!("{line}\n");
                format!("build {}", words[1..].join(" "))
            }
            "g" => {
                again += &format!("{line}\n");
                format!("grow {}", words[1..].join(" "))
            }
            "f" => String::from("forget"),
            "a" => {
                let request = format!("query {} {}", words[1], words[2]);
                let answer = asked.answer(&request).expect("a request");
                again += &format!("a {} {}{}", words[1], words[2], &answer[1..]);
                continue;
            }
            "p" => {
                let given = words[1..4].join(" ");
                let answer = asked.answer(&format!("strip {given}"));
                again += &format!("p {given}{}", &answer.expect("a request")[1..]);
                continue;
            }
            _ => continue,
        };
        again += &asked.answer(&request).expect("a request");
    }
    assert_eq!(text, again);
}
