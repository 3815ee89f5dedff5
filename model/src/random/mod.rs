//! Random runs and states. Everything follows from a seed.

pub mod damage;
pub mod guided;
pub mod longest;
pub mod maps;
pub mod proposals;
pub mod rng;
pub mod states;
pub mod stored;
pub mod texts;
pub mod world;

pub use rng::Rng;
