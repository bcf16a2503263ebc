//! What the tests, samples and benchmarks share.

mod rng;

pub use rng::Rng;
