//! Tests of buffers, fusion and the component classes, by worked examples.

mod buffers;
mod classes;
mod messages;
mod routines;
