//! The built command, called as people call it.

mod changed;
mod checked;
mod chosen;
mod common;
mod drawn;
mod fixed;
mod further;
mod hand;
mod jobs;
mod kept;
mod lightest;
mod nones;
mod onward;
mod parted;
mod quick;
mod renamed;
mod several;
mod shared;
mod status;
mod weighed;
