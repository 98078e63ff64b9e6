//! Stands in when the original's text was not found: everything has its name
//! and type, so that what uses this crate still builds, and nothing can be made.

fn absent() -> ! {
    panic!("{}", crate::NOT_AT_HAND)
}

pub mod judge {
    use super::absent;
    use crate::{Recipe, Record, Refusal, Seam, Settings};

    pub struct Section(());

    pub struct Curve(());

    pub fn section(_: &Recipe) -> Section {
        absent()
    }

    pub fn section_of(_: &Record) -> Option<Section> {
        absent()
    }

    pub fn combination_accepts(_: f64) {
        absent()
    }

    pub fn default_settings() -> Settings {
        absent()
    }

    pub fn build(_: &Settings, _: &[f64], _: &[f64]) -> Result<Curve, Refusal> {
        absent()
    }

    pub fn build_with(
        _: &Settings,
        _: &[f64],
        _: &[f64],
        _: bool,
        _: Option<Seam>,
    ) -> Result<Curve, Refusal> {
        absent()
    }

    pub fn grow(
        _: &Settings,
        _: &[f64],
        _: &[f64],
        _: usize,
        _: Option<&Curve>,
        _: usize,
    ) -> Result<Curve, Refusal> {
        absent()
    }

    impl Section {
        pub fn record(&self) -> Record {
            absent()
        }

        pub fn f_next(&self) -> f64 {
            absent()
        }

        pub fn value(&self, _: f64) -> f64 {
            absent()
        }

        pub fn primitive(&self, _: f64) -> f64 {
            absent()
        }
    }

    impl Curve {
        pub fn sections(&self) -> usize {
            absent()
        }

        pub fn record(&self, _: usize) -> Record {
            absent()
        }

        pub fn f_next(&self, _: usize) -> f64 {
            absent()
        }

        pub fn section_value(&self, _: usize, _: f64) -> f64 {
            absent()
        }

        pub fn section_primitive(&self, _: usize, _: f64) -> f64 {
            absent()
        }

        pub fn extrapolation(&self) -> [f64; 3] {
            absent()
        }

        pub fn held(&self) -> bool {
            absent()
        }

        pub fn seam(&self) -> Option<Seam> {
            absent()
        }

        pub fn place(&self, _: f64) -> Option<usize> {
            absent()
        }

        pub fn with_extrapolation(self, _: bool) -> Curve {
            absent()
        }

        pub fn allows_extrapolation(&self) -> bool {
            absent()
        }

        pub fn value(&self, _: f64) -> Result<f64, Refusal> {
            absent()
        }

        pub fn primitive(&self, _: f64) -> Result<f64, Refusal> {
            absent()
        }

        pub fn derivative(&self, _: f64) -> Result<f64, Refusal> {
            absent()
        }
    }
}

pub mod plain {
    use super::absent;
    use crate::{Refusal, Settings};

    pub struct Curve(());

    pub fn build(_: &Settings, _: &[f64], _: &[f64]) -> Result<Curve, Refusal> {
        absent()
    }

    pub fn grow(
        _: &Settings,
        _: &[f64],
        _: &[f64],
        _: usize,
        _: Option<&Curve>,
        _: usize,
    ) -> Result<Curve, Refusal> {
        absent()
    }

    impl Curve {
        pub fn with_extrapolation(self, _: bool) -> Curve {
            absent()
        }

        pub fn value(&self, _: f64) -> Result<f64, Refusal> {
            absent()
        }

        pub fn primitive(&self, _: f64) -> Result<f64, Refusal> {
            absent()
        }
    }
}
