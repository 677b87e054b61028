//! Tests of records and the files that hold them: stores and sinks, the wire form, values, sections,
//! records that are written and read, and tools over whole records.

mod reader;
mod section;
mod store;
mod tools;
mod value;
mod wire;
mod writer;
