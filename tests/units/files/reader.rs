//! Tests of `cy_reader` by its public calls: records in each form that is accepted, and each
//! refusal.

mod info;
mod loading;
mod play;
mod sections;
