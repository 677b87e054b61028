// Small records for the tests: their bytes are those that the Protocol Buffers library gives.
use crate::records::record_of;
use std::alloc::{AllocError, Global};

// A record of the message 7 on /in at time 100.
const IN_HEADER: &[u8] = b"\0\0\0\0\0\0\0\0\x27\0\0\0\0\0\0\0\
    \x08\x01\x10\0\x18\0\x20\x80\x90\xdf\xc0\x4a\x28\0\x30\xde\x10\x38\x01\x40\x01\x48\x64\x50\x64\
    \x58\x01\x60\xa1\x11\x68\x01\x70\x80\x84\xaf\x5f\x78\0";

const IN_SECTIONS: &[u8] = b"\x04\0\0\0\0\0\0\0\x09\0\0\0\0\0\0\0\x0a\x03/in\x12\0\x1a\0\
    \x01\0\0\0\0\0\0\0\x08\0\0\0\0\0\0\0\x08\x64\x10\x64\x18\x01\x20\x02\
    \x02\0\0\0\0\0\0\0\x0d\0\0\0\0\0\0\0\x0a\x0b\x0a\x03/in\x10\x64\x1a\x02\x08\x0e\
    \x03\0\0\0\0\0\0\0\x33\0\0\0\0\0\0\0\
    \x0a\x13\x08\x04\x10\x90\x10\xaa\x06\x0b\x08\x01\x12\x03/in\x1a\0\x22\0\
    \x0a\x10\x08\x01\x10\xa9\x10\xb2\x06\x08\x08\x01\x10\x64\x18\x64\x20\x02\
    \x0a\x0a\x08\x02\x10\xc1\x10\xba\x06\x02\x08\x01";

// A record of the messages 7 and -980 on /in, both at time 100.
const TWO_HEADER: &[u8] = b"\0\0\0\0\0\0\0\0\x27\0\0\0\0\0\0\0\
    \x08\x01\x10\0\x18\0\x20\x80\x90\xdf\xc0\x4a\x28\0\x30\xec\x10\x38\x01\x40\x01\x48\x64\x50\x64\
    \x58\x02\x60\xaf\x11\x68\x01\x70\x80\x84\xaf\x5f\x78\0";

const TWO_SECTIONS: &[u8] = b"\x04\0\0\0\0\0\0\0\x09\0\0\0\0\0\0\0\x0a\x03/in\x12\0\x1a\0\
    \x01\0\0\0\0\0\0\0\x08\0\0\0\0\0\0\0\x08\x64\x10\x64\x18\x02\x20\x05\
    \x02\0\0\0\0\0\0\0\x1b\0\0\0\0\0\0\0\
    \x0a\x0b\x0a\x03/in\x10\x64\x1a\x02\x08\x0e\x0a\x0c\x0a\x03/in\x10\x64\x1a\x03\x08\xa7\x0f\
    \x03\0\0\0\0\0\0\0\x33\0\0\0\0\0\0\0\
    \x0a\x13\x08\x04\x10\x90\x10\xaa\x06\x0b\x08\x02\x12\x03/in\x1a\0\x22\0\
    \x0a\x10\x08\x01\x10\xa9\x10\xb2\x06\x08\x08\x02\x10\x64\x18\x64\x20\x05\
    \x0a\x0a\x08\x02\x10\xc1\x10\xba\x06\x02\x08\x02";

// The record of the first of these records' message and of its passing on to /out.
const OUT_HEADER: &[u8] = b"\0\0\0\0\0\0\0\0\x27\0\0\0\0\0\0\0\
    \x08\x01\x10\0\x18\0\x20\x80\x90\xdf\xc0\x4a\x28\0\x30\x86\x11\x38\x01\x40\x02\x48\x64\x50\x64\
    \x58\x02\x60\xdf\x11\x68\x01\x70\x80\x84\xaf\x5f\x78\0";

const OUT_SECTIONS: &[u8] = b"\x04\0\0\0\0\0\0\0\x09\0\0\0\0\0\0\0\x0a\x03/in\x12\0\x1a\0\
    \x04\0\0\0\0\0\0\0\x0a\0\0\0\0\0\0\0\x0a\x04/out\x12\0\x1a\0\
    \x01\0\0\0\0\0\0\0\x08\0\0\0\0\0\0\0\x08\x64\x10\x64\x18\x02\x20\x04\
    \x02\0\0\0\0\0\0\0\x1b\0\0\0\0\0\0\0\
    \x0a\x0b\x0a\x03/in\x10\x64\x1a\x02\x08\x0e\x0a\x0c\x0a\x04/out\x10\x64\x1a\x02\x08\x0e\
    \x03\0\0\0\0\0\0\0\x49\0\0\0\0\0\0\0\
    \x0a\x13\x08\x04\x10\x90\x10\xaa\x06\x0b\x08\x01\x12\x03/in\x1a\0\x22\0\
    \x0a\x14\x08\x04\x10\xa9\x10\xaa\x06\x0c\x08\x01\x12\x04/out\x1a\0\x22\0\
    \x0a\x10\x08\x01\x10\xc3\x10\xb2\x06\x08\x08\x02\x10\x64\x18\x64\x20\x04\
    \x0a\x0a\x08\x02\x10\xdb\x10\xba\x06\x02\x08\x02";

// The record of both of these records' messages and of their passing on to /out.
const TWO_OUT_HEADER: &[u8] =
    b"\0\0\0\0\0\0\0\0'\0\0\0\0\0\0\0\x08\x01\x10\0\x18\0\x20\x80\x90\xdf\xc0J(\00\xa3\x118\x01@\
    \x02HdPdX\x04`\xfc\x11h\x01p\x80\x84\xaf_x\0";

const TWO_OUT_SECTIONS: &[u8] =
    b"\x04\0\0\0\0\0\0\0\x09\0\0\0\0\0\0\0\x0a\x03/in\x12\0\x1a\0\x04\0\0\0\0\0\0\0\x0a\0\0\0\0\0\
    \0\0\x0a\x04/out\x12\0\x1a\0\x01\0\0\0\0\0\0\0\x08\0\0\0\0\0\0\0\x08d\x10d\x18\x04\x20\x0a\
    \x02\0\0\0\0\0\0\08\0\0\0\0\0\0\0\x0a\x0b\x0a\x03/in\x10d\x1a\x02\x08\x0e\x0a\x0c\x0a\x04/ou\
    t\x10d\x1a\x02\x08\x0e\x0a\x0c\x0a\x03/in\x10d\x1a\x03\x08\xa7\x0f\x0a\x0d\x0a\x04/out\x10d\
    \x1a\x03\x08\xa7\x0f\x03\0\0\0\0\0\0\0I\0\0\0\0\0\0\0\x0a\x13\x08\x04\x10\x90\x10\xaa\x06\
    \x0b\x08\x02\x12\x03/in\x1a\0\x22\0\x0a\x14\x08\x04\x10\xa9\x10\xaa\x06\x0c\x08\x02\x12\x04/\
    out\x1a\0\x22\0\x0a\x10\x08\x01\x10\xc3\x10\xb2\x06\x08\x08\x04\x10d\x18d\x20\x0a\x0a\x0a\
    \x08\x02\x10\xdb\x10\xba\x06\x02\x08\x04";

// A record without messages, and its index.
const EMPTY_HEADER: &[u8] = b"\0\0\0\0\0\0\0\0\x27\0\0\0\0\0\0\0\
    \x08\x01\x10\0\x18\0\x20\x80\x90\xdf\xc0\x4a\x28\0\x30\x90\x10\x38\0\x40\0\x48\0\x50\0\
    \x58\0\x60\xa0\x10\x68\x01\x70\x80\x84\xaf\x5f\x78\0";

const EMPTY_SECTIONS: &[u8] = b"\x03\0\0\0\0\0\0\0\0\0\0\0\0\0\0\0";

// The header of a record that is still being written, but for the zeros behind it.
const OPEN_HEADER: &[u8] = b"\0\0\0\0\0\0\0\0\x25\0\0\0\0\0\0\0\
    \x08\x01\x10\0\x18\0\x20\x80\x90\xdf\xc0\x4a\x28\0\x30\0\x38\0\x40\0\x48\0\x50\0\
    \x58\0\x60\0\x68\0\x70\x80\x84\xaf\x5f\x78\0";

/// The trace of that run.
pub const TRACE: &str =
    "cyber-trace 1\nplayed 1 shadowed 0\ncomponent \"pass\"\nroles 0\ncall 1/1 1 1@100=7\n\
    end DATA_WAIT next 2\ntape \"/in\" 1\ntape \"/out\" 1\n";

/// The trace of a run of the record of two messages.
pub const TWO_TRACE: &str = "cyber-trace 1\nplayed 2 shadowed 0\ncomponent \"pass\"\nroles 00\n\
    call 1/1 1 1@100=7\ncall 2/2 2 2@100=-980\nend DATA_WAIT next 3\n\
    tape \"/in\" 1\ntape \"/out\" 1\ntape \"/in\" 2\ntape \"/out\" 2\n";

/// The trace of a run of a record without messages.
pub const EMPTY_TRACE: &str =
    "cyber-trace 1\nplayed 0 shadowed 0\ncomponent \"pass\"\nroles -\nend DATA_WAIT next 0\n";

/// The trace of a run of the record that is written, of which one message is shadowed.
pub const AGAIN_TRACE: &str =
    "cyber-trace 1\nplayed 1 shadowed 1\ncomponent \"pass\"\nroles 0\ncall 1/1 1 1@100=7\n\
    end DATA_WAIT next 2\ntape \"/in\" 1\ntape \"/out\" 1\n";

/// The record that is played, of 2,209 bytes.
pub fn in_record(alloc: Global) -> Result<Vec<u8>, AllocError> {
    record_of(alloc, IN_HEADER, IN_SECTIONS)
}

/// A record of two messages, of 2,223 bytes.
pub fn two_record(alloc: Global) -> Result<Vec<u8>, AllocError> {
    record_of(alloc, TWO_HEADER, TWO_SECTIONS)
}

/// The record that is written, of 2,271 bytes.
pub fn out_record(alloc: Global) -> Result<Vec<u8>, AllocError> {
    record_of(alloc, OUT_HEADER, OUT_SECTIONS)
}

/// A record without messages, of 2,080 bytes.
pub fn empty_record(alloc: Global) -> Result<Vec<u8>, AllocError> {
    record_of(alloc, EMPTY_HEADER, EMPTY_SECTIONS)
}

/// The record of one message under the header of a record that is still being written.
pub fn open_record(alloc: Global) -> Result<Vec<u8>, AllocError> {
    record_of(alloc, OPEN_HEADER, OUT_SECTIONS)
}

/// The record of four messages that is written for two, of 2,300 bytes.
pub fn two_out_record(alloc: Global) -> Result<Vec<u8>, AllocError> {
    record_of(alloc, TWO_OUT_HEADER, TWO_OUT_SECTIONS)
}
