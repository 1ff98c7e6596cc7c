//! The command `captions`, run as a user runs it.

mod burn;
mod keep;
mod lines;
mod run;
mod show;
mod status;
mod text;
mod usage;
