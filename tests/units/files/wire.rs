//! Tests of `cy_wire` by its public calls: vectors of the Protocol Buffers documentation, and
//! fields in each odd form.

mod reading;
mod writing;
