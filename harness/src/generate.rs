//! What cases are made of: the same seed always gives the same.

pub mod chains;
mod commands;
pub mod frames;
pub mod lists;
pub mod provoked;
mod random;
pub mod recordings;
mod rooms;
pub mod rows;
pub mod tables;
pub mod texts;

pub use provoked::Provoked;
pub use random::Random;
pub use rooms::{room, ROOMS};

/// What was done to make a case, for the counts.
pub type Marks = Vec<&'static str>;
