//! Tests of `cy_section` by its public calls: the bytes of a whole record, and sections in each odd
//! form.

mod reading;
mod writing;
