//! Requests and answers by lines of text; the grammar stands in the README.

use crate::{Curve, Recipe, Record, Refusal, Seam, Section, Settings, words};
use crate::{build_with, column, default_settings, grow, knots, nodes, root, section, strip};

/// Answers requests, keeping the section and the curve made last.
#[derive(Default)]
pub struct Asked {
    section: Option<Section>,
    curve: Option<Curve>,
}

/// Why a line is not a request.
type Malformed = &'static str;

impl Asked {
    /// The lines that answer a request, or why it is none.
    pub fn answer(&mut self, request: &str) -> Result<String, Malformed> {
        let mut parts = request.split_whitespace();
        let verb = parts.next().ok_or("an empty line")?;
        let mut rest = Vec::new();
        for part in parts {
            rest.push(words::read(part).ok_or("a word is not 1 to 16 lower-case hex digits")?);
        }
        let mut given = Given(&rest);
        let answer = match verb {
            "default" => method_line(&default_settings()),
            "root" => self.root(&mut given)?,
            "section" => self.section(&mut given)?,
            "at" => self.at(&mut given)?,
            "build" => self.build(&mut given)?,
            "grow" => self.grow(&mut given)?,
            "query" => self.query(&mut given)?,
            "strip" => self.strip(&mut given)?,
            "derivative" => self.derivative(&mut given)?,
            "forget" => {
                *self = Asked::default();
                String::from("f\n")
            }
            _ => return Err("an unknown request"),
        };
        given.end()?;
        Ok(answer)
    }

    fn root(&mut self, given: &mut Given) -> Result<String, Malformed> {
        let a = given.word()?;
        let mut answer = String::from("r");
        words::push(&mut answer, a);
        words::push_floats(&mut answer, &[root(f64::from_bits(a))]);
        Ok(answer + "\n")
    }

    fn section(&mut self, given: &mut Given) -> Result<String, Malformed> {
        let recipe = Recipe::read(given.all()).ok_or("not a kind with its arguments")?;
        let made = section(&recipe);
        let answer = record_line(&made.record(), made.f_next());
        self.section = Some(made);
        Ok(answer)
    }

    fn at(&mut self, given: &mut Given) -> Result<String, Malformed> {
        let x = given.float()?;
        let section = self.section.as_ref().ok_or("no section was made yet")?;
        let mut answer = String::from("x");
        words::push_floats(&mut answer, &[x, section.value(x), section.primitive(x)]);
        Ok(answer + "\n")
    }

    fn build(&mut self, given: &mut Given) -> Result<String, Malformed> {
        let positivity = given.flag()?;
        let hold = given.flag()?;
        let settings = given.settings(positivity)?;
        let (x, y) = (given.floats()?, given.floats()?);
        let seam = given.seam()?;
        given.end()?;
        let made = build_with(&settings, &x, &y, hold, seam);
        Ok(self.keep(made, &settings, &x, &y, seam))
    }

    fn grow(&mut self, given: &mut Given) -> Result<String, Malformed> {
        let positivity = given.flag()?;
        let settings = given.settings(positivity)?;
        let localisation = given.count()?;
        let final_size = given.count()?;
        let (x, y) = (given.floats()?, given.floats()?);
        given.end()?;
        let first = localisation.checked_add(1).ok_or("too large a count")? == x.len();
        let seam = self.curve.as_ref().and_then(Curve::seam);
        let seam = if first { None } else { seam };
        let made = grow(
            &settings,
            &x,
            &y,
            localisation,
            self.curve.as_ref(),
            final_size,
        );
        Ok(self.keep(made, &settings, &x, &y, seam))
    }

    /// Tells what was made of a table, from a seam or not, and keeps it; a refusal leaves no curve.
    fn keep(
        &mut self,
        made: Result<Curve, Refusal>,
        settings: &Settings,
        x: &[f64],
        y: &[f64],
        seam: Option<Seam>,
    ) -> String {
        self.curve = None;
        let curve = match made {
            Ok(curve) => curve,
            Err(refusal) => return format!("b {:x} 0\n", refusal.number()),
        };
        let mut answer = format!("b 0 {:x}\n", curve.sections());
        for (place, knots) in knots(settings, x, y, &curve).iter().enumerate() {
            answer += &record_line(&curve.record(place), curve.f_next(place));
            answer += &knots_line(knots);
        }
        answer.push('e');
        words::push_floats(&mut answer, &curve.extrapolation());
        answer += "\nn";
        let nodes = nodes(settings, x, y, seam).expect("a table that builds has nodes");
        words::push_floats(&mut answer, &nodes);
        answer += "\nu";
        words::push_floats(&mut answer, &column(&curve, x));
        self.curve = Some(curve);
        answer + "\n"
    }

    fn query(&mut self, given: &mut Given) -> Result<String, Malformed> {
        let allow = given.flag()?;
        let x = given.float()?;
        given.end()?;
        let curve = self.allowing(allow)?;
        let told = curve
            .value(x)
            .and_then(|value| Ok([value, curve.primitive(x)?]));
        Ok(told_line('q', told))
    }

    fn strip(&mut self, given: &mut Given) -> Result<String, Malformed> {
        let allow = given.flag()?;
        let (a, b) = (given.float()?, given.float()?);
        given.end()?;
        let price = strip(self.allowing(allow)?, a, b);
        Ok(told_line('p', price.map(|price| [price])))
    }

    /// The curve made last, once it may answer outside its knots or may not.
    fn allowing(&mut self, allow: bool) -> Result<&Curve, Malformed> {
        let curve = self.curve.take().ok_or("no curve was made yet")?;
        Ok(self.curve.insert(curve.with_extrapolation(allow)))
    }

    fn derivative(&mut self, given: &mut Given) -> Result<String, Malformed> {
        let x = given.float()?;
        let curve = self.curve.as_ref().ok_or("no curve was made yet")?;
        Ok(told_line('d', curve.derivative(x).map(|value| [value])))
    }
}

/// Settings, positivity first, as those of a table are told.
fn method_line(settings: &Settings) -> String {
    let mut line = String::from("m");
    words::push(&mut line, settings.positivity.into());
    words::push_floats(&mut line, &[settings.quadraticity, settings.monotonicity]);
    line + "\n"
}

/// A record and the node it ends on.
pub fn record_line(record: &Record, f_next: f64) -> String {
    let mut line = String::from("t");
    words::push(&mut line, record.tag.into());
    words::push_floats(&mut line, &record.slots);
    words::push_floats(&mut line, &[f_next]);
    line + "\n"
}

/// A section's prices at its two knots, and the total after its period.
fn knots_line(knots: &[f64; 3]) -> String {
    let mut line = String::from("k");
    words::push_floats(&mut line, knots);
    line + "\n"
}

/// A refusal's number and zeros, or 0 and the answer.
fn told_line<const N: usize>(letter: char, told: Result<[f64; N], Refusal>) -> String {
    let mut line = String::from(letter);
    words::push(&mut line, told.map_or_else(|r| r.number().into(), |_| 0));
    words::push_floats(&mut line, &told.unwrap_or([0.0; N]));
    line + "\n"
}

/// The words of a request that are not yet read.
struct Given<'a>(&'a [u64]);

impl<'a> Given<'a> {
    fn word(&mut self) -> Result<u64, Malformed> {
        let (&word, rest) = self.0.split_first().ok_or("too few words")?;
        self.0 = rest;
        Ok(word)
    }

    fn all(&mut self) -> &'a [u64] {
        std::mem::take(&mut self.0)
    }

    fn end(&self) -> Result<(), Malformed> {
        if self.0.is_empty() {
            Ok(())
        } else {
            Err("too many words")
        }
    }

    fn float(&mut self) -> Result<f64, Malformed> {
        self.word().map(f64::from_bits)
    }

    fn flag(&mut self) -> Result<bool, Malformed> {
        match self.word()? {
            0 => Ok(false),
            1 => Ok(true),
            _ => Err("a flag is neither 0 nor 1"),
        }
    }

    fn count(&mut self) -> Result<usize, Malformed> {
        usize::try_from(self.word()?).map_err(|_| "too large a count")
    }

    fn floats(&mut self) -> Result<Vec<f64>, Malformed> {
        let count = self.count()?;
        let (floats, rest) = self.0.split_at_checked(count).ok_or("too few words")?;
        self.0 = rest;
        Ok(floats.iter().copied().map(f64::from_bits).collect())
    }

    fn settings(&mut self, positivity: bool) -> Result<Settings, Malformed> {
        Ok(Settings {
            quadraticity: self.float()?,
            monotonicity: self.float()?,
            positivity,
        })
    }

    fn seam(&mut self) -> Result<Option<Seam>, Malformed> {
        if self.0.is_empty() {
            return Ok(None);
        }
        let count = self.count()?;
        // The original adds one to the count and would overflow.
        count.checked_add(1).ok_or("too large a count")?;
        let f_next = self.float()?;
        Ok(Some(Seam { count, f_next }))
    }
}
