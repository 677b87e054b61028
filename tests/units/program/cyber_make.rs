//! What no clause of `cyber_cli` says of `make`: that it succeeds where nothing fails, that its
//! trace is that of another runtime, and what stands where a call of the store fails.

mod faults;
mod makes;
mod ran;
mod words;
