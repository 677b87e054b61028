//! What no clause of `cyber_cli` says of `play`: that it succeeds where nothing fails, that its
//! bytes are those of another runtime, and what stands where a call of the store fails.

mod faults;
mod pinned;
mod plays;
mod ran;
mod samples;
mod setups;
