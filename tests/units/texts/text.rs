//! Tests of the text form of Protocol Buffers: what texts give, and each kind of fault at its
//! place.

mod faults;
mod fields;
