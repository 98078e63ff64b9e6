//! The parts of the program that holds the proved library against the original: what is compared, drawn, judged, counted and made
//! smaller. They are a library so that tests can judge by another rule.

mod anew;
pub mod at_knots;
pub mod calendar;
pub mod careful;
pub mod case;
pub mod counts;
pub mod defaults;
pub mod draw;
mod expected;
pub mod judge;
mod lent;
pub mod mark;
pub mod parabola;
pub mod roots;
pub mod safe;
pub mod shrink;
pub mod strip;
