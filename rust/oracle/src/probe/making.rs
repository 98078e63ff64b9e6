// Stands behind `telling.rs` in the original's module: makes sections and curves
// by the original's own constructors, and hands out their answers.

use crate::{Convex, Quadratic, Recipe, Refusal, Seam, Settings};

fn quadratic_part(part: &Quadratic) -> Box<dyn SectionHelper> {
    let &[x_prev, x_next, f_prev, f_next, average, total] = part.args();
    match part {
        Quadratic::Plain(_) => Box::new(QuadraticHelper::new(
            x_prev, x_next, f_prev, f_next, average, total,
        )),
        Quadratic::Min(_) => Box::new(QuadraticMinHelper::new(
            x_prev, x_next, f_prev, f_next, average, total,
        )),
    }
}

fn convex_part(part: &Convex) -> Box<dyn SectionHelper> {
    let &[x_prev, x_next, g_prev, g_next, average, eta, total] = part.args();
    match part {
        Convex::Two(_) => Box::new(ConvexMonotone2Helper::new(
            x_prev, x_next, g_prev, g_next, average, eta, total,
        )),
        Convex::Three(_) => Box::new(ConvexMonotone3Helper::new(
            x_prev, x_next, g_prev, g_next, average, eta, total,
        )),
        Convex::Four(_) => Box::new(ConvexMonotone4Helper::new(
            x_prev, x_next, g_prev, g_next, average, eta, total,
        )),
        Convex::FourMin(_) => Box::new(ConvexMonotone4MinHelper::new(
            x_prev, x_next, g_prev, g_next, average, eta, total,
        )),
    }
}

fn combination(weight: f64, quadratic: &Quadratic, convex: &Convex) -> ComboHelper {
    let quadratic_helper = quadratic_part(quadratic);
    let conv_mono_helper = convex_part(convex);
    if weight > 0.0 && weight < 1.0 {
        return ComboHelper::new(quadratic_helper, conv_mono_helper, weight);
    }
    // With debug assertions on, `new` stops at such a weight; this is what it
    // gives with them off, so that both ways of building answer alike.
    ComboHelper {
        quadraticity: weight,
        quadratic_helper,
        conv_mono_helper,
    }
}

/// Hands the weight to the combination's own `new`, which panics if it checks
/// its weight and does not take this one.
pub fn combination_accepts(weight: f64) {
    let quadratic = quadratic_part(&Quadratic::Plain([0.0; 6]));
    let convex = convex_part(&Convex::Two([0.0; 7]));
    ComboHelper::new(quadratic, convex, weight);
}

/// A section made by the original.
pub struct Section(Box<dyn SectionHelper>);

/// Makes a section by the `new` of its kind.
pub fn section(recipe: &Recipe) -> Section {
    Section(match recipe {
        &Recipe::Constant([value, total, x_prev]) => {
            Box::new(EverywhereConstantHelper::new(value, total, x_prev))
        }
        &Recipe::Gradient([f_prev, total, x_prev, x_next, f_next]) => Box::new(
            ConstantGradHelper::new(f_prev, total, x_prev, x_next, f_next),
        ),
        Recipe::Convex(part) => convex_part(part),
        Recipe::Quadratic(part) => quadratic_part(part),
        Recipe::Combination(weight, quadratic, convex) => {
            Box::new(combination(*weight, quadratic, convex))
        }
    })
}

impl Section {
    pub fn record(&self) -> Record {
        self.0.record()
    }

    pub fn f_next(&self) -> f64 {
        self.0.f_next()
    }

    pub fn value(&self, x: f64) -> f64 {
        self.0.value(x)
    }

    pub fn primitive(&self, x: f64) -> f64 {
        self.0.primitive(x)
    }
}

/// A curve made by the original.
pub struct Curve(ConvexMonotoneInterpolation);

fn method(settings: &Settings) -> ConvexMonotone {
    ConvexMonotone::new(
        settings.quadraticity,
        settings.monotonicity,
        settings.positivity,
    )
}

/// The settings that the original takes when none are named. The library calls them its gas default.
pub fn default_settings() -> Settings {
    let method = ConvexMonotone::default();
    Settings {
        quadraticity: method.quadraticity,
        monotonicity: method.monotonicity,
        positivity: method.force_positive,
    }
}

/// Builds by the original's public way.
pub fn build(settings: &Settings, x: &[f64], y: &[f64]) -> Result<Curve, Refusal> {
    Ok(Curve(method(settings).interpolate(x, y)?))
}

/// Builds by the original's full constructor, which can hold the last period
/// and take a seam.
pub fn build_with(
    settings: &Settings,
    x: &[f64],
    y: &[f64],
    hold: bool,
    seam: Option<Seam>,
) -> Result<Curve, Refusal> {
    Ok(Curve(ConvexMonotoneInterpolation::new_impl(
        x.to_vec(),
        y.to_vec(),
        settings.quadraticity,
        settings.monotonicity,
        settings.positivity,
        hold,
        seam.map(|seam| (seam.count, seam.f_next)),
    )?))
}

/// One step of growth.
pub fn grow(
    settings: &Settings,
    x: &[f64],
    y: &[f64],
    localisation: usize,
    previous: Option<&Curve>,
    final_size: usize,
) -> Result<Curve, Refusal> {
    Ok(Curve(method(settings).local_interpolate(
        x,
        y,
        localisation,
        previous.map(|curve| &curve.0),
        final_size,
    )?))
}

impl Curve {
    /// How many sections it has.
    pub fn sections(&self) -> usize {
        self.0.section_helpers.len()
    }

    pub fn record(&self, place: usize) -> Record {
        self.0.section_helpers[place].record()
    }

    pub fn f_next(&self, place: usize) -> f64 {
        self.0.section_helpers[place].f_next()
    }

    /// A section's own value, wherever x lies.
    pub fn section_value(&self, place: usize, x: f64) -> f64 {
        self.0.section_helpers[place].value(x)
    }

    /// A section's own primitive, wherever x lies.
    pub fn section_primitive(&self, place: usize, x: f64) -> f64 {
        self.0.section_helpers[place].primitive(x)
    }

    /// The extrapolation record: value, total, and where it starts.
    pub fn extrapolation(&self) -> [f64; 3] {
        let record = self.0.extrapolation_helper.record();
        assert_eq!(record.tag, 0x0100, "extrapolation is a constant section");
        [record.slots[13], record.slots[14], record.slots[15]]
    }

    /// Whether its last period is held.
    pub fn held(&self) -> bool {
        self.0.constant_last_period
    }

    /// What a grown curve would take over from this one.
    pub fn seam(&self) -> Option<Seam> {
        let (count, f_next) = self.0.existing_seam()?;
        Some(Seam { count, f_next })
    }

    /// The place of the section that answers for x below the last knot.
    pub fn place(&self, x: f64) -> Option<usize> {
        if x.is_nan() || x >= self.0.x_max() {
            return None;
        }
        let asked: *const dyn SectionHelper = self.0.section(x);
        let found = |held: &Box<dyn SectionHelper>| {
            let held: *const dyn SectionHelper = &**held;
            std::ptr::addr_eq(held, asked)
        };
        self.0.section_helpers.iter().position(found)
    }

    pub fn with_extrapolation(self, allow: bool) -> Curve {
        Curve(self.0.with_extrapolation(allow))
    }

    pub fn allows_extrapolation(&self) -> bool {
        self.0.allows_extrapolation()
    }

    pub fn value(&self, x: f64) -> Result<f64, Refusal> {
        Ok(self.0.value(x)?)
    }

    pub fn primitive(&self, x: f64) -> Result<f64, Refusal> {
        Ok(self.0.primitive(x)?)
    }

    pub fn derivative(&self, x: f64) -> Result<f64, Refusal> {
        Ok(self.0.derivative(x)?)
    }
}
