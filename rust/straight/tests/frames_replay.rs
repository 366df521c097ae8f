//! The part of the replay that concerns frames, with its own tests. It needs the straight version alone, so it runs here too,
//! where no archive is linked.

#![allow(dead_code)]

#[path = "../../replay/src/frames/mod.rs"]
mod frames;
#[path = "../../replay/src/random.rs"]
mod random;
