//! The two sides of the benchmark, both as [`refile_model::Replica`].

pub mod baseline;
mod hex;
mod json;
mod lines;

/// The compiled library, by the adapter that its differential tests use too.
#[path = "../../refile/tests/linked/mod.rs"]
pub mod linked;
