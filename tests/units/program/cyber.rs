//! What no clause of `cyber_cli` says: that its calls succeed where nothing fails, and that the
//! bytes are those of other writers.

mod alike;
mod checks;
mod faults;
mod info;
mod kept;
mod pass;
mod ran;
mod refused;
mod samples;
mod untold;
