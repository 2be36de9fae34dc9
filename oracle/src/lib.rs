//! The crate itself, run as a judge: what it answers for a session sheet or a template.

#[cfg(feature = "port")]
pub mod compare;
pub mod examples;
#[cfg(feature = "fuzz")]
mod fuzz;
mod head;
pub mod inputs;
pub mod judge;
mod kelvin;
pub mod meaning;
#[cfg(all(test, feature = "port"))]
mod migration;
mod places;
mod reports;
pub mod ruling;
pub mod sample;
pub mod sheet;
#[cfg(feature = "port")]
pub mod speed;
mod spelling;
pub mod stream;
mod strict;
pub mod stub;
pub mod tree;

// The crate's text names its frame so.
pub use stub::Frame;

/// The dependencies that were built in, and the compiler, as "name version, name version".
pub const VERSIONS: &str = env!("PRALAKUON_VERSIONS");
