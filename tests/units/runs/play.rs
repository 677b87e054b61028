//! Tests of the plain types, of the serial run and of the text of its trace, and of runs on
//! threads: worked examples, and that calls succeed where there is memory.

mod messages;
mod played;
mod stops;
mod threads;
mod timers;
mod wired;
mod worlds;
