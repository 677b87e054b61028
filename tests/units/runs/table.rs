//! Tests of the flag table: a table is made of a world, threads take their steps there, also by the
//! scan of a context, and the world that it gives back has what they did.

mod crews;
mod doors;
mod holds;
mod scans;
mod stops;
mod tables;
mod traces;
mod walk;
