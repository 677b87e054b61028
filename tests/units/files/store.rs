//! What no clause of `cy_store` says: that its calls succeed where nothing fails, and what files
//! and streams of the machine hold.

mod calls;
mod whole;
