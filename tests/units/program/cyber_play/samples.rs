// A chain of two components, the record that is played through it, and the files that are written
// for that: their bytes are those that `tests/replay.py` and `tests/record.py` write.
use crate::records::record_of;
use std::alloc::{AllocError, Global};

/// The DAG file: `p` reads /a, and `r` reads what `p` writes.
pub const DAG: &[u8] = b"module_config {\n  module_library: \"x\"\n\
    \x20 components {\n    class_name: \"PassComponent\"\n\
    \x20   config { name: \"p\" config_file_path: \"p.conf\" readers { channel: \"/a\" } }\n  }\n\
    \x20 components {\n    class_name: \"PassComponent\"\n\
    \x20   config { name: \"r\" config_file_path: \"r.conf\" readers { channel: \"/o\" } }\n  }\n\
    }\n";

/// The file of `p`.
pub const FIRST_CONFIG: &[u8] = b"out: \"/o\"\n";

/// The file of `r`.
pub const SECOND_CONFIG: &[u8] = b"out: \"/z\"\n";

// The record of the message 4 on /a at time 1.
const IN_HEADER: &[u8] = b"\0\0\0\0\0\0\0\0\x27\0\0\0\0\0\0\0\
    \x08\x01\x10\0\x18\0\x20\x80\x90\xdf\xc0\x4a\x28\0\x30\xdc\x10\x38\x01\x40\x01\x48\x01\x50\
    \x01\x58\x01\x60\x9e\x11\x68\x01\x70\x80\x84\xaf\x5f\x78\0";

// Its sections.
const IN_SECTIONS: &[u8] = b"\x04\0\0\0\0\0\0\0\x08\0\0\0\0\0\0\0\x0a\x02/a\x12\0\x1a\0\
    \x01\0\0\0\0\0\0\0\x08\0\0\0\0\0\0\0\x08\x01\x10\x01\x18\x01\x20\x02\
    \x02\0\0\0\0\0\0\0\x0c\0\0\0\0\0\0\0\
    \x0a\x0a\x0a\x02/a\x10\x01\x1a\x02\x08\x08\
    \x03\0\0\0\0\0\0\0\x32\0\0\0\0\0\0\0\
    \x0a\x12\x08\x04\x10\x90\x10\xaa\x06\x0a\x08\x01\x12\x02/a\x1a\0\x22\0\
    \x0a\x10\x08\x01\x10\xa8\x10\xb2\x06\x08\x08\x01\x10\x01\x18\x01\x20\x02\
    \x0a\x0a\x08\x02\x10\xc0\x10\xba\x06\x02\x08\x01";

// The record of that message and of its passing on to /o, and from there to /z.
const OUT_HEADER: &[u8] = b"\0\0\0\0\0\0\0\0\x27\0\0\0\0\0\0\0\
    \x08\x01\x10\0\x18\0\x20\x80\x90\xdf\xc0\x4a\x28\0\x30\xa4\x11\x38\x01\x40\x03\x48\x01\x50\
    \x01\x58\x03\x60\x8e\x12\x68\x01\x70\x80\x84\xaf\x5f\x78\0";

// Its sections.
const OUT_SECTIONS: &[u8] = b"\x04\0\0\0\0\0\0\0\x08\0\0\0\0\0\0\0\x0a\x02/a\x12\0\x1a\0\
    \x04\0\0\0\0\0\0\0\x08\0\0\0\0\0\0\0\x0a\x02/o\x12\0\x1a\0\
    \x04\0\0\0\0\0\0\0\x08\0\0\0\0\0\0\0\x0a\x02/z\x12\0\x1a\0\
    \x01\0\0\0\0\0\0\0\x08\0\0\0\0\0\0\0\x08\x01\x10\x01\x18\x03\x20\x06\
    \x02\0\0\0\0\0\0\0\x24\0\0\0\0\0\0\0\
    \x0a\x0a\x0a\x02/a\x10\x01\x1a\x02\x08\x08\x0a\x0a\x0a\x02/o\x10\x01\x1a\x02\x08\x08\x0a\x0a\
    \x0a\x02/z\x10\x01\x1a\x02\x08\x08\
    \x03\0\0\0\0\0\0\0\x5a\0\0\0\0\0\0\0\
    \x0a\x12\x08\x04\x10\x90\x10\xaa\x06\x0a\x08\x01\x12\x02/a\x1a\0\x22\0\
    \x0a\x12\x08\x04\x10\xa8\x10\xaa\x06\x0a\x08\x01\x12\x02/o\x1a\0\x22\0\
    \x0a\x12\x08\x04\x10\xc0\x10\xaa\x06\x0a\x08\x01\x12\x02/z\x1a\0\x22\0\
    \x0a\x10\x08\x01\x10\xd8\x10\xb2\x06\x08\x08\x03\x10\x01\x18\x01\x20\x06\
    \x0a\x0a\x08\x02\x10\xf0\x10\xba\x06\x02\x08\x03";

// The header of a record that is still being written, but for the zeros behind it.
const OPEN_HEADER: &[u8] = b"\0\0\0\0\0\0\0\0\x25\0\0\0\0\0\0\0\
    \x08\x01\x10\0\x18\0\x20\x80\x90\xdf\xc0\x4a\x28\0\x30\0\x38\0\x40\0\x48\0\x50\0\x58\0\x60\0\
    \x68\0\x70\x80\x84\xaf\x5f\x78\0";

/// The trace of the run.
pub const TRACE: &[u8] = b"cyber-trace 1\nplayed 1 shadowed 0\n\
    component \"p\"\nroles 0\ncall 1/1 1 1@1=4\nend DATA_WAIT next 2\n\
    component \"r\"\nroles 0\ncall 1/1 1 1@1=4\nend DATA_WAIT next 2\n\
    tape \"/a\" 1\ntape \"/o\" 1\ntape \"/z\" 1\n";

/// The line that tells of it.
pub const LINE: &[u8] = b"done: played 1, shadowed 0, calls 2, written 3\n";

/// The record that is played, of 2,206 bytes.
pub fn in_record(alloc: Global) -> Result<Vec<u8>, AllocError> {
    record_of(alloc, IN_HEADER, IN_SECTIONS)
}

/// The record that is written, of 2,318 bytes.
pub fn out_record(alloc: Global) -> Result<Vec<u8>, AllocError> {
    record_of(alloc, OUT_HEADER, OUT_SECTIONS)
}

/// The same under the header of a record that is still being written.
pub fn open_record(alloc: Global) -> Result<Vec<u8>, AllocError> {
    record_of(alloc, OPEN_HEADER, OUT_SECTIONS)
}
