//! Tests of the text form of Protocol Buffers, and of configuration files in that form.

mod config;
mod text;
