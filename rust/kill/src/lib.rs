//! The killing test: a desk that keeps a journal is killed at any moment, over and over, and started again. Nothing that it has
//! answered may be lost, and nothing may be there that nobody asked for. [`expected`] has what a desk must answer and keep, by the
//! straight version; [`load`] makes its lines; [`desk`] starts it and ends it; [`trials`] compares.

pub mod desk;
pub mod expected;
pub mod load;
pub mod trials;
