// The files that are made for four messages under the prefix `m`, and the record of two: their
// bytes are those that `bench/made.py` writes.
use crate::records::record_of;
use std::alloc::{AllocError, Global};

/// The files of the components.
pub const ADDER: &[u8] = b"out: \"/sum\"\n";

pub const BAND: &[u8] = b"out: \"/band\"\nlo: -2000\nhi: 500\n";

pub const LAST8: &[u8] = b"out: \"/win\"\nn: 8\n";

pub const LATE: &[u8] = b"out: \"/late\"\ndelay: 5000000\n";

/// The DAG file.
pub const DAG: &[u8] = b"module_config {\n\
    \x20 module_library: \"own\"\n\
    \x20 components {\n\
    \x20   class_name: \"SumComponent\"\n\
    \x20   config {\n\
    \x20     name: \"adder\"\n\
    \x20     config_file_path: \"m.adder.conf\"\n\
    \x20     readers {\n\
    \x20       channel: \"/a\"\n\
    \x20     }\n\
    \x20     readers {\n\
    \x20       channel: \"/b\"\n\
    \x20     }\n\
    \x20   }\n\
    \x20 }\n\
    \x20 components {\n\
    \x20   class_name: \"FilterComponent\"\n\
    \x20   config {\n\
    \x20     name: \"band\"\n\
    \x20     config_file_path: \"m.band.conf\"\n\
    \x20     readers {\n\
    \x20       channel: \"/sum\"\n\
    \x20     }\n\
    \x20   }\n\
    \x20 }\n\
    \x20 components {\n\
    \x20   class_name: \"WindowComponent\"\n\
    \x20   config {\n\
    \x20     name: \"last8\"\n\
    \x20     config_file_path: \"m.last8.conf\"\n\
    \x20     readers {\n\
    \x20       channel: \"/band\"\n\
    \x20     }\n\
    \x20   }\n\
    \x20 }\n\
    \x20 components {\n\
    \x20   class_name: \"HoldComponent\"\n\
    \x20   config {\n\
    \x20     name: \"late\"\n\
    \x20     config_file_path: \"m.late.conf\"\n\
    \x20     readers {\n\
    \x20       channel: \"/a\"\n\
    \x20     }\n\
    \x20   }\n\
    \x20 }\n\
    }\n";

// The record of four messages, the third of them on /b.
const FOUR_HEADER: &[u8] =
    b"\0\0\0\0\0\0\0\0,\0\0\0\0\0\0\0\x08\x01\x10\0\x18\0\x20\x80\x90\xdf\xc0J(\00\xab\x11\
    8\x01@\x02H\xc0\x84=P\x80\x92\xf4\x01X\x04`\x86\x12h\x01p\x80\x84\xaf_x\0";

// Its sections.
const FOUR_SECTIONS: &[u8] =
    b"\x04\0\0\0\0\0\0\0\x08\0\0\0\0\0\0\0\x0a\x02/a\x12\0\x1a\0\x04\0\0\0\0\0\0\0\x08\0\0\
    \0\0\0\0\0\x0a\x02/b\x12\0\x1a\0\x01\0\0\0\0\0\0\0\x0d\0\0\0\0\0\0\0\x08\xc0\x84=\
    \x10\x80\x92\xf4\x01\x18\x04\x20\x0c\x02\0\0\0\0\0\0\0>\0\0\0\0\0\0\0\x0a\x0d\x0a\
    \x02/a\x10\xc0\x84=\x1a\x03\x08\xa7\x0f\x0a\x0d\x0a\x02/a\x10\x80\x89z\x1a\x03\x08\
    \xe3\x0e\x0a\x0e\x0a\x02/b\x10\xc0\x8d\xb7\x01\x1a\x03\x08\x83\x0e\x0a\x0e\x0a\x02/a\
    \x10\x80\x92\xf4\x01\x1a\x03\x08\x87\x0d\x03\0\0\0\0\0\0\0K\0\0\0\0\0\0\0\x0a\x12\
    \x08\x04\x10\x90\x10\xaa\x06\x0a\x08\x03\x12\x02/a\x1a\0\"\0\x0a\x12\x08\x04\x10\xa8\
    \x10\xaa\x06\x0a\x08\x01\x12\x02/b\x1a\0\"\0\x0a\x15\x08\x01\x10\xc0\x10\xb2\x06\x0d\
    \x08\x04\x10\xc0\x84=\x18\x80\x92\xf4\x01\x20\x0c\x0a\x0a\x08\x02\x10\xdd\x10\xba\
    \x06\x02\x08\x04";

// The record of two messages, both on /a.
const TWO_HEADER: &[u8] =
    b"\0\0\0\0\0\0\0\0+\0\0\0\0\0\0\0\x08\x01\x10\0\x18\0\x20\x80\x90\xdf\xc0J(\00\xf2\x10\
    8\x01@\x01H\xc0\x84=P\x80\x89zX\x02`\xb8\x11h\x01p\x80\x84\xaf_x\0";

// Its sections.
const TWO_SECTIONS: &[u8] =
    b"\x04\0\0\0\0\0\0\0\x08\0\0\0\0\0\0\0\x0a\x02/a\x12\0\x1a\0\x01\0\0\0\0\0\0\0\x0c\0\0\
    \0\0\0\0\0\x08\xc0\x84=\x10\x80\x89z\x18\x02\x20\x06\x02\0\0\0\0\0\0\0\x1e\0\0\0\0\0\
    \0\0\x0a\x0d\x0a\x02/a\x10\xc0\x84=\x1a\x03\x08\xa7\x0f\x0a\x0d\x0a\x02/a\x10\x80\
    \x89z\x1a\x03\x08\xe3\x0e\x03\0\0\0\0\0\0\06\0\0\0\0\0\0\0\x0a\x12\x08\x04\x10\x90\
    \x10\xaa\x06\x0a\x08\x02\x12\x02/a\x1a\0\"\0\x0a\x14\x08\x01\x10\xa8\x10\xb2\x06\x0c\
    \x08\x02\x10\xc0\x84=\x18\x80\x89z\x20\x06\x0a\x0a\x08\x02\x10\xc4\x10\xba\x06\x02\
    \x08\x02";

/// The record of four messages.
pub fn four_record(alloc: Global) -> Result<Vec<u8>, AllocError> {
    record_of(alloc, FOUR_HEADER, FOUR_SECTIONS)
}

/// The record of two.
pub fn two_record(alloc: Global) -> Result<Vec<u8>, AllocError> {
    record_of(alloc, TWO_HEADER, TWO_SECTIONS)
}
