//! Many queries at once against each by itself: the same numbers, and the refusal of the first that is refused, with nothing written.

#[allow(dead_code)]
mod asked;
mod drawn;

use asked::{OLD, all, bits, place};
use havgrunel::lent::{self, Buffers, Curve};
use havgrunel::{ConvexMonotone, ManyRefused, Refusal, SLOTS};
use oracle::answers::rng::Rng;

struct Built {
    knots: Vec<f64>,
    curve: Curve,
    tags: Vec<u16>,
    slots: Vec<f64>,
}

fn built(rng: &mut Rng) -> Option<Built> {
    let more = rng.pick(&[3.0, 40.0, 600.0]) as u64;
    let (knots, averages) = drawn::table(rng, 2, more);
    let method = ConvexMonotone::new(
        rng.pick(&[0.0, 0.3, 1.0]),
        rng.pick(&[0.0, 0.7, 1.0]),
        rng.chance(2),
    );
    let sections = knots.len() - 1;
    let mut nodes = vec![0.0; knots.len()];
    let (mut tags, mut slots) = (vec![0; sections], vec![0.0; SLOTS * sections]);
    let buffers = Buffers {
        nodes: &mut nodes,
        tags: &mut tags,
        slots: &mut slots,
    };
    let mut curve = lent::build(&knots, &averages, method, rng.chance(3), None, buffers).ok()?;
    curve.extrapolates = rng.chance(2);
    Some(Built {
        knots,
        curve,
        tags,
        slots,
    })
}

type Single = fn(&[f64], &Curve, &[u16], &[f64], f64) -> Result<f64, Refusal>;
type Many = fn(&[f64], &Curve, &[u16], &[f64], &[f64], &mut [f64]) -> Result<(), ManyRefused>;

/// The answers of a call for many are those of the calls for each; how many there were, and whether one was refused.
fn agree(built: &Built, places: &[f64], single: Single, many: Many) -> (usize, bool) {
    let Built {
        knots,
        curve,
        tags,
        slots,
    } = built;
    let each = all(places.iter().map(|&x| single(knots, curve, tags, slots, x)));
    let mut answers = vec![OLD; places.len() + 1];
    let told = many(knots, curve, tags, slots, places, &mut answers);
    assert_eq!(told, each.as_ref().map(|_| ()).map_err(|&refused| refused));
    let mut due = each.clone().unwrap_or(vec![OLD; places.len()]);
    due.push(OLD);
    assert_eq!(bits(&answers), bits(&due));
    (places.len(), each.is_err())
}

#[test]
fn many_are_told_what_each_is_told() {
    let mut rng = Rng::new(20);
    let (mut asked, mut refused, mut accepted) = (0, 0, 0);
    for _ in 0..4_000 {
        let Some(mut built) = built(&mut rng) else {
            continue;
        };
        let count = rng.pick(&[0.0, 1.0, 7.0, 60.0, 900.0]) as usize;
        let mut places: Vec<f64> = (0..count).map(|_| place(&mut rng, &built.knots)).collect();
        match rng.below(3) {
            0 => places.sort_by(f64::total_cmp),
            1 => {
                places.sort_by(f64::total_cmp);
                places.reverse();
            }
            _ => {}
        }
        // Now and then a record is not legal: only a query that needs it is refused.
        if rng.chance(4) {
            let spoiled = rng.below(built.tags.len() as u64) as usize;
            built.tags[spoiled] = rng.pick(&[0.0, 1.0, 65_535.0]) as u16;
        }
        for (single, many) in [
            (lent::value as Single, lent::values as Many),
            (lent::primitive as Single, lent::primitives as Many),
        ] {
            let (n, bad) = agree(&built, &places, single, many);
            asked += n;
            refused += usize::from(bad);
            accepted += usize::from(!bad);
        }
    }
    assert!(
        asked > 100_000 && refused > 500 && accepted > 500,
        "{asked} asked, {refused} refused, {accepted} accepted"
    );
}

#[test]
fn room_and_knots_come_before_any_query() {
    let mut rng = Rng::new(21);
    let Built {
        knots,
        curve,
        tags,
        slots,
    } = std::iter::repeat_with(|| built(&mut rng))
        .flatten()
        .next()
        .expect("one is built");
    let places = [f64::NAN, knots[0]];
    let mut one = [OLD];
    for (knots, tags, slots, refusal) in [
        (&knots[..1], &tags[..], &slots[..], Refusal::TooFewPoints),
        (&knots[..], &tags[1..], &slots[..], Refusal::BufferTooShort),
        (&knots[..], &tags[..], &slots[1..], Refusal::BufferTooShort),
        (&knots[..], &tags[..], &slots[..], Refusal::BufferTooShort),
    ] {
        // No single query is to blame.
        let refused = Err(ManyRefused {
            refusal,
            query: None,
        });
        let values = lent::values(knots, &curve, tags, slots, &places, &mut one);
        let primitives = lent::primitives(knots, &curve, tags, slots, &places, &mut one);
        assert_eq!((values, primitives), (refused, refused));
    }
    assert_eq!(one, [OLD]);
    let told = lent::values(&knots, &curve, &tags, &slots, &places, &mut [OLD; 2]);
    let refused = ManyRefused {
        refusal: Refusal::QueryNotANumber,
        query: Some(0),
    };
    assert_eq!(told, Err(refused));
    assert_eq!(
        lent::values(&knots, &curve, &tags, &slots, &[], &mut []),
        Ok(())
    );
}
