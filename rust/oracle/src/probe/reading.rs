// Stands behind `making.rs` in the original's module: the way back from a record
// to a section, whatever numbers the record holds.

/// The section whose record this is; none where the tag is not legal.
pub fn section_of(record: &Record) -> Option<Section> {
    let quadratic = match record.tag >> 12 {
        0 => None,
        code => Some(quadratic_of(code, &record.slots[1..13])?),
    };
    let code = record.tag & 0x0fff;
    let other = match code {
        0 => None,
        code => Some(other_of(code, &record.slots[13..])?),
    };
    match (quadratic, other) {
        (None, None) => None,
        (Some(part), None) | (None, Some(part)) => Some(Section(part)),
        // The constant kinds don't combine.
        (Some(_), Some(_)) if code < 0x0300 => None,
        (Some(quadratic_helper), Some(conv_mono_helper)) => Some(Section(Box::new(ComboHelper {
            quadraticity: record.slots[0],
            quadratic_helper,
            conv_mono_helper,
        }))),
    }
}

fn quadratic_of(code: u16, slots: &[f64]) -> Option<Box<dyn SectionHelper>> {
    let &[a, b, c, d, e, f, g, h, i, j, k, l] = slots else {
        unreachable!("a quadratic part has twelve slots")
    };
    match code {
        2 => Some(Box::new(QuadraticHelper {
            x_prev: a,
            x_scaling: b,
            a: c,
            b: d,
            c: e,
            f_next: f,
            prev_primitive: g,
        })),
        4 | 5 => Some(Box::new(QuadraticMinHelper {
            split_region: code == 5,
            x1: a,
            x2: b,
            x3: c,
            x4: d,
            a: e,
            b: f,
            c: g,
            primitive1: h,
            primitive2: i,
            f_next: j,
            x_scaling: k,
            x_ratio: l,
        })),
        _ => None,
    }
}

fn other_of(code: u16, slots: &[f64]) -> Option<Box<dyn SectionHelper>> {
    let &[a, b, c, d, e, f, g, h, x_ratio, x2, x3] = slots else {
        unreachable!("the other part has eleven slots")
    };
    let four = ConvexMonotone4Helper {
        x_prev: a,
        x_scaling: b,
        g_prev: c,
        g_next: d,
        f_average: e,
        eta4: f,
        prev_primitive: g,
        a: h,
    };
    match code {
        0x0100 => Some(Box::new(EverywhereConstantHelper {
            value: a,
            prev_primitive: b,
            x_prev: c,
        })),
        0x0200 => Some(Box::new(ConstantGradHelper {
            f_prev: a,
            prev_primitive: b,
            x_prev: c,
            f_grad: d,
            f_next: e,
        })),
        0x0300 => Some(Box::new(ConvexMonotone2Helper {
            x_prev: a,
            x_scaling: b,
            g_prev: c,
            g_next: d,
            f_average: e,
            eta2: f,
            prev_primitive: g,
        })),
        0x0400 => Some(Box::new(ConvexMonotone3Helper {
            x_prev: a,
            x_scaling: b,
            g_prev: c,
            g_next: d,
            f_average: e,
            eta3: f,
            prev_primitive: g,
        })),
        0x0500 => Some(Box::new(four)),
        0x0600 | 0x0680 => Some(Box::new(ConvexMonotone4MinHelper {
            base: four,
            split_region: code == 0x0680,
            x_ratio,
            x2,
            x3,
        })),
        _ => None,
    }
}
