//! Document 01, read a second time: literal belief sets, nothing shared with the proved crates. From the ground up: a
//! module uses only those that stand above it here.

pub mod bits;
pub mod refusals;

pub mod beliefs;
pub mod marks;
pub mod steps;

pub mod rules;

pub mod policy;
pub mod words;

pub mod sets;
pub mod walk;

pub mod passed;
pub mod record;

pub mod derivation;
pub mod runs;
