//! The sixth wish of document 02, what a shared name means: the judge, and RENAME held to it.

#[path = "../common/mod.rs"]
mod common;
mod judge;
#[path = "../common/kinds.rs"]
mod kinds;
mod pairs;
mod small;
mod told;
