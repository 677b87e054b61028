//! Tests of components, of the flag table, of serial runs and runs on threads, and of traces.

mod comp;
mod play;
mod table;
mod trace;
