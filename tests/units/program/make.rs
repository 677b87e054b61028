//! What no clause of `cy_make` says: that its files are made where there is memory, and that their
//! bytes are those of another writer.

mod faults;
mod makes;
mod samples;
