//! Tables that are cut into sheets, against the original's build of the whole.
//!
//! The original has no sheets. What it says of the whole is due of every part: nodes, totals, sections, and the tail. Whether a part is refused for its numbers it says of that part built by itself.

use havgrunel::lent::Sheet;
use havgrunel::{MOST_POINTS, ffi};

use super::compare::{Agreed, Mismatch, same_float, same_number, same_tail};
use super::{Judge, built, due, method};
use crate::case::Sheets;
use crate::counts::{CUTS_NOT_INNER, Way};
use crate::expected::{Curve, Rule};
use crate::lent::{Lent, marked, old};

/// The document's number for a sheet with no given node.
const NO_GIVEN_NODE: u8 = 16;

/// What a sheet answers: the total after it and the three numbers of the tail.
const ANSWER: usize = 4;

/// The whole that is due.
struct Whole {
    curve: Curve,
    nodes: Vec<f64>,
    totals: Vec<f64>,
}

/// A sheet from one knot to another, what it is handed and the number that is due.
struct Piece<'a> {
    from: usize,
    to: usize,
    x: &'a [f64],
    y: &'a [f64],
    sheet: Sheet,
    due: u8,
}

/// What the original says of the whole table, with its sections by the rule that is due, or the refusal by number.
fn whole(case: &Sheets, rule: Option<Rule>) -> Result<Whole, u8> {
    let table = &case.table;
    let (settings, x, y) = (&table.settings, &table.x, &table.y);
    let curve = Rule::due(rule, y, built(settings, x, y, false, None))?;
    let nodes = oracle::nodes(settings, x, y, None).expect("a table that builds has nodes");
    let totals = oracle::totals(settings, x, y).expect("a table that builds has totals");
    Ok(Whole {
        curve: Curve::new(curve, settings, x, y, rule),
        nodes,
        totals,
    })
}

/// Whether cuts are inner knots of so many points, each above the one before.
fn fit(cuts: &[usize], points: usize) -> bool {
    let rising = cuts.windows(2).all(|pair| pair[0] < pair[1]);
    rising
        && cuts
            .iter()
            .all(|&cut| 0 < cut && cut < points.saturating_sub(1))
}

/// Entries lent for a sheet's answer.
fn entries(case: &Sheets) -> usize {
    ANSWER.saturating_add_signed(case.room.tail as isize)
}

/// The sheets from left to right. The last one has all averages that are left, so that one too many is in a sheet too.
fn pieces<'a>(
    case: &'a Sheets,
    whole: Option<&Whole>,
    rule: Option<Rule>,
    lent: &Lent,
) -> Vec<Piece<'a>> {
    let (x, y) = (&case.table.x[..], &case.table.y[..]);
    let last = x.len().saturating_sub(1);
    let mut from = 0;
    let mut piece = |to: usize| {
        let (knots, averages) = if to < last {
            (to + 1, y.len().min(to + 1))
        } else {
            (x.len(), y.len())
        };
        let (x, y) = (&x[from..knots], &y[from.min(averages)..averages]);
        let [left, right, start] = case.given;
        let node = |place: usize, given: f64| whole.map_or(given, |whole| whole.nodes[place]);
        let sheet = Sheet {
            left: (from > 0).then(|| node(from, left)),
            right: (to < last).then(|| node(to, right)),
            start: whole.map_or(start, |whole| whole.totals[from]),
            place: from,
        };
        let short = lent.short_for_sheets(to + 1) || entries(case) < ANSWER;
        let due = if (sheet.left, sheet.right) == (None, None) {
            NO_GIVEN_NODE
        } else {
            let alone = built(&case.table.settings, x, y, false, None);
            due(&Rule::due(rule, y, alone), x.len(), short)
        };
        let piece = Piece {
            from,
            to,
            x,
            y,
            sheet,
            due,
        };
        from = to;
        piece
    };
    let mut pieces: Vec<_> = case.cuts.iter().map(|&cut| piece(cut)).collect();
    pieces.push(piece(last));
    pieces
}

impl Judge {
    pub(super) fn sheets(&mut self, case: &Sheets) -> Agreed {
        let (x, y) = (&case.table.x, &case.table.y);
        let rule = self.table_rule(&case.table);
        let judged = whole(case, rule);
        if let Ok(whole) = &judged {
            for &cut in &case.cuts {
                let mine = ffi::inner_node(x[cut - 1], x[cut], x[cut + 1], y[cut], y[cut + 1]);
                let what = || format!("the node at cut {cut}");
                same_float("a cut's node", what, mine, whole.nodes[cut])?;
            }
        }
        self.lent.lend(x.len(), &case.room);
        let pieces = pieces(case, judged.as_ref().ok(), rule, &self.lent);
        let rising: Vec<usize> = (0..pieces.len()).collect();
        let cut = !case.cuts.is_empty();
        self.counts.cut += u64::from(cut);
        self.counts.cut_largest += u64::from(cut && x.len() >= MOST_POINTS - 1);
        let mut all = true;
        for order in [&rising, &case.order] {
            self.lent.lend(x.len(), &case.room);
            all &= self.in_order(case, &pieces, order, &judged)?;
        }
        self.counts.cut_whole += u64::from(all);
        if let (true, Ok(whole)) = (all, &judged) {
            self.counts
                .made(Way::Cut, case.table.split, whole.curve.seen());
        }
        for cuts in [&case.cuts, &case.others] {
            self.at_once(case, cuts, &judged)?;
        }
        Ok(())
    }

    /// Builds the sheets one by one. Each may write its own stretch alone, and at the end every stretch is the whole's. Answers
    /// whether all were accepted.
    fn in_order(
        &mut self,
        case: &Sheets,
        pieces: &[Piece<'_>],
        order: &[usize],
        judged: &Result<Whole, u8>,
    ) -> Result<bool, Mismatch> {
        let mut accepted = vec![false; pieces.len()];
        for &number in order {
            let piece = &pieces[number];
            let mut answer: Vec<f64> = (0..entries(case)).map(old).collect();
            let (buffers, ..) = self.lent.parts();
            let method = method(&case.table.settings, case.table.split);
            let told = ffi::sheet(piece.x, piece.y, method, piece.sheet, buffers, &mut answer);
            self.counts.sheets += 1;
            self.counts.number(told);
            same_number("a sheet's refusal", told, piece.due)?;
            accepted[number] = told == 0;
            let written = accepted
                .iter()
                .zip(pieces)
                .filter(|(accepted, _)| **accepted);
            let written = written.map(|(_, piece)| (piece.from, piece.to));
            self.lent.untouched_outside(written)?;
            if told != 0 {
                marked("answer", &answer, 0..usize::MAX)?;
                continue;
            }
            self.counts.sheets_accepted += 1;
            marked("answer", &answer, ANSWER..usize::MAX)?;
            let record = match judged {
                Ok(whole) => {
                    let what = || format!("the total after sheet {number}");
                    let due = whole.totals[piece.to];
                    same_float("a sheet's total", what, answer[0], due)?;
                    Some(whole.curve.extrapolation())
                }
                Err(_) => None,
            };
            match piece.sheet.right {
                Some(_) => same_tail(&answer[1..ANSWER], &[0.0; 3])?,
                None => record.map_or(Ok(()), |due| same_tail(&answer[1..ANSWER], &due))?,
            }
        }

        // All are accepted exactly when the original builds, but for what lent buffers and the most points forbid.
        let all = accepted.iter().all(|&accepted| accepted);
        let points = case.table.x.len();
        let few = pieces.iter().all(|piece| piece.x.len() <= MOST_POINTS);
        let short = self.lent.short_for_sheets(points) || entries(case) < ANSWER;
        let cut = !case.cuts.is_empty();
        if all != (judged.is_ok() && cut && few && !short) {
            let told = format!(
                "all sheets accepted: {all}, the original: {:?}",
                judged.as_ref().err()
            );
            return Err(Mismatch::new("whether all sheets are accepted", told));
        }
        let Ok(whole) = judged else {
            return Ok(all);
        };
        let written = accepted
            .iter()
            .zip(pieces)
            .filter(|(accepted, _)| **accepted);
        for (_, piece) in written {
            for place in piece.from..=piece.to {
                let (mine, due) = (self.lent.nodes[place], whole.nodes[place]);
                same_float("a node", || format!("node {place}"), mine, due)?;
            }
            for place in piece.from..piece.to {
                self.same_section(&case.table.x, &whole.curve, place)?;
            }
            self.lent.written(piece.from, piece.to)?;
        }
        Ok(all)
    }

    /// Builds the table with these cuts in one call.
    fn at_once(&mut self, case: &Sheets, cuts: &[usize], judged: &Result<Whole, u8>) -> Agreed {
        let (x, y) = (&case.table.x, &case.table.y);
        let method = method(&case.table.settings, case.table.split);
        self.lent.lend(x.len(), &case.room);
        let (buffers, sections, tail) = self.lent.parts();
        let number = ffi::build_in_sheets(x, y, method, cuts, buffers, sections, tail);
        let due = if fit(cuts, x.len()) {
            due(judged, x.len(), self.lent.short(x.len()))
        } else {
            CUTS_NOT_INNER
        };
        self.counts.number(number);
        same_number("the refusal of a table in sheets", number, due)?;
        match judged {
            Ok(whole) if due == 0 => self.same_curve(x, &whole.curve, &whole.nodes),
            _ => self.lent.untouched(None),
        }
    }
}
