//! Cases for a comparison of the port with the Rust: made from a seed, answered by the
//! oracle, and judged by the two documents' lists of refusals.

pub mod ask;
pub mod boards;
pub mod case;
pub mod expect;
pub mod hidden;
mod hide;
mod hide_under;
pub mod make;
pub mod norms;
pub mod paper;
pub mod plain;
pub mod record;
pub mod rng;
mod setups;

/// The port, through its C functions.
#[cfg(feature = "capi")]
pub mod port;
