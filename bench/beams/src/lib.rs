pub mod base;
pub mod effort;
pub mod model;
pub mod plan;
pub mod strong;
pub mod tails;
pub mod trace;
