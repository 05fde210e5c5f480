//! Points of the seventh wish of document 02, letters for fixed tables, that are left to be read.

#[path = "../common/mod.rs"]
mod common;
mod generated;
mod kept;
#[path = "../common/kinds.rs"]
mod kinds;
mod read;
mod small;
