//! An independent reference of Numlejka, generators of calls, and the library's C interface, for the tests.

pub mod batches;
pub mod calls;
pub mod damage;
pub mod fractions;
pub mod generate;
#[cfg(feature = "library")]
pub mod interface;
pub mod limits;
pub mod plan;
pub mod questions;
pub mod random;
pub mod reference;
pub mod reference_bounds;
pub mod worked;
