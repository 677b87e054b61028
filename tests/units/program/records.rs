//! How a sample of a record is laid out: its header, zeros up to the end of the header section, and
//! the sections behind it.
use std::alloc::{AllocError, Global};

/// The end of a record's header section.
pub const HEADER_END: usize = 2064;

/// A record by its header and its sections.
pub fn record_of(alloc: Global, header: &[u8], sections: &[u8]) -> Result<Vec<u8>, AllocError> {
    let mut bytes = header.to_vec(alloc)?;
    bytes.resize(HEADER_END, 0)?;
    bytes.extend_from_slice(sections)?;
    Ok(bytes)
}
