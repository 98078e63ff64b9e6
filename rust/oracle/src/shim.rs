//! What the original's text expects around it, written again with the same
//! signatures so that the text compiles as it stands.

pub mod errors {
    /// An error of the original: nothing but its message.
    #[derive(Debug)]
    pub struct Message(pub String);

    pub type QlResult<T> = Result<T, Message>;
}

pub mod types {
    pub type Real = f64;
    pub type Size = usize;
}

pub mod math {
    pub mod interpolations {
        use crate::errors::QlResult;
        use crate::types::{Real, Size};

        /// A curve that can be asked.
        pub trait Interpolation {
            fn value(&self, x: Real) -> QlResult<Real>;
            fn derivative(&self, x: Real) -> QlResult<Real>;
            fn primitive(&self, x: Real) -> QlResult<Real>;
            fn x_min(&self) -> Real;
            fn x_max(&self) -> Real;
            fn is_in_range(&self, x: Real) -> bool;
        }

        /// A maker of curves.
        pub trait Interpolator {
            type Output: Interpolation;

            const GLOBAL: bool = false;

            fn interpolate(&self, x: &[Real], y: &[Real]) -> QlResult<Self::Output>;

            fn required_points(&self) -> Size {
                2
            }
        }

        /// A maker that can also grow a curve step by step.
        pub trait LocalInterpolator: Interpolator {
            const DATA_SIZE_ADJUSTMENT: usize = 0;

            fn local_interpolate(
                &self,
                x: &[Real],
                y: &[Real],
                localisation: usize,
                prev: Option<&Self::Output>,
                final_size: usize,
            ) -> QlResult<Self::Output>;
        }

        include!(concat!(env!("OUT_DIR"), "/original.rs"));
    }
}

// Last, so that the text finds it by its import and not by standing below it.
/// Leaves the calling function with an error that carries the message.
macro_rules! fail {
    ($($message:tt)*) => {
        return Err($crate::errors::Message(format!($($message)*)))
    };
}
pub(crate) use fail;
