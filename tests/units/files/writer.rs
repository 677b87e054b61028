// Records byte by byte, and puts that fail in turn.
use cy_store::{MemStore, Store};
use cy_writer::{ChannelRef, Messages, RecordWriter, Stamp, WriteError, write_file, write_record};
use std::alloc::Global;
use std::process::Abort;
use std::test::Fail;

const NAME: &str = "out.rec";

/// The place behind the header.
const HEADER_END: usize = 2064;

/// The header of a record that is still being written.
const OPEN_HEADER: &[u8] = b"\0\0\0\0\0\0\0\0\x25\0\0\0\0\0\0\0\
    \x08\x01\x10\0\x18\0\x20\x80\x90\xdf\xc0\x4a\x28\0\x30\0\x38\0\x40\0\x48\0\x50\0\x58\0\x60\0\
    \x68\0\x70\x80\x84\xaf\x5f\x78\0";

/// A message of 7 on two channels.
const ONE_HEADER: &[u8] = b"\0\0\0\0\0\0\0\0\x27\0\0\0\0\0\0\0\
    \x08\x01\x10\0\x18\0\x20\x80\x90\xdf\xc0\x4a\x28\0\x30\x86\x11\x38\x01\x40\x02\x48\x64\x50\x64\
    \x58\x02\x60\xdf\x11\x68\x01\x70\x80\x84\xaf\x5f\x78\0";

const ONE_SECTIONS: &[u8] = b"\x04\0\0\0\0\0\0\0\x09\0\0\0\0\0\0\0\x0a\x03/in\x12\0\x1a\0\
    \x04\0\0\0\0\0\0\0\x0a\0\0\0\0\0\0\0\x0a\x04/out\x12\0\x1a\0\
    \x01\0\0\0\0\0\0\0\x08\0\0\0\0\0\0\0\x08\x64\x10\x64\x18\x02\x20\x04\
    \x02\0\0\0\0\0\0\0\x1b\0\0\0\0\0\0\0\
    \x0a\x0b\x0a\x03/in\x10\x64\x1a\x02\x08\x0e\x0a\x0c\x0a\x04/out\x10\x64\x1a\x02\x08\x0e\
    \x03\0\0\0\0\0\0\0\x49\0\0\0\0\0\0\0\
    \x0a\x13\x08\x04\x10\x90\x10\xaa\x06\x0b\x08\x01\x12\x03/in\x1a\0\x22\0\
    \x0a\x14\x08\x04\x10\xa9\x10\xaa\x06\x0c\x08\x01\x12\x04/out\x1a\0\x22\0\
    \x0a\x10\x08\x01\x10\xc3\x10\xb2\x06\x08\x08\x02\x10\x64\x18\x64\x20\x04\
    \x0a\x0a\x08\x02\x10\xdb\x10\xba\x06\x02\x08\x02";

/// Two messages of 0 on one channel, 20,000,000,001 nanoseconds apart, and so in two chunks.
const APART_HEADER: &[u8] = b"\0\0\0\0\0\0\0\0\x2b\0\0\0\0\0\0\0\
    \x08\x01\x10\0\x18\0\x20\x80\x90\xdf\xc0\x4a\x28\0\x30\x9c\x11\x38\x02\x40\x01\x48\0\
    \x50\x81\x90\xdf\xc0\x4a\x58\x02\x60\x84\x12\x68\x01\x70\x80\x84\xaf\x5f\x78\0";

const APART_SECTIONS: &[u8] = b"\x04\0\0\0\0\0\0\0\x08\0\0\0\0\0\0\0\x0a\x02/a\x12\0\x1a\0\
    \x01\0\0\0\0\0\0\0\x08\0\0\0\0\0\0\0\x08\0\x10\0\x18\x01\x20\x02\
    \x02\0\0\0\0\0\0\0\x0c\0\0\0\0\0\0\0\x0a\x0a\x0a\x02/a\x10\0\x1a\x02\x08\0\
    \x01\0\0\0\0\0\0\0\x10\0\0\0\0\0\0\0\
    \x08\x81\x90\xdf\xc0\x4a\x10\x81\x90\xdf\xc0\x4a\x18\x01\x20\x02\
    \x02\0\0\0\0\0\0\0\x10\0\0\0\0\0\0\0\x0a\x0e\x0a\x02/a\x10\x81\x90\xdf\xc0\x4a\x1a\x02\x08\0\
    \x03\0\0\0\0\0\0\0\x58\0\0\0\0\0\0\0\
    \x0a\x12\x08\x04\x10\x90\x10\xaa\x06\x0a\x08\x02\x12\x02/a\x1a\0\x22\0\
    \x0a\x10\x08\x01\x10\xa8\x10\xb2\x06\x08\x08\x01\x10\0\x18\0\x20\x02\
    \x0a\x0a\x08\x02\x10\xc0\x10\xba\x06\x02\x08\x01\
    \x0a\x18\x08\x01\x10\xdc\x10\xb2\x06\x10\
    \x08\x01\x10\x81\x90\xdf\xc0\x4a\x18\x81\x90\xdf\xc0\x4a\x20\x02\
    \x0a\x0a\x08\x02\x10\xfc\x10\xba\x06\x02\x08\x01";

/// The same a nanosecond nearer, and so in one chunk.
const NEAR_HEADER: &[u8] = b"\0\0\0\0\0\0\0\0\x2b\0\0\0\0\0\0\0\
    \x08\x01\x10\0\x18\0\x20\x80\x90\xdf\xc0\x4a\x28\0\x30\xf0\x10\x38\x01\x40\x01\x48\0\
    \x50\x80\x90\xdf\xc0\x4a\x58\x02\x60\xb6\x11\x68\x01\x70\x80\x84\xaf\x5f\x78\0";

const NEAR_SECTIONS: &[u8] = b"\x04\0\0\0\0\0\0\0\x08\0\0\0\0\0\0\0\x0a\x02/a\x12\0\x1a\0\
    \x01\0\0\0\0\0\0\0\x0c\0\0\0\0\0\0\0\x08\0\x10\x80\x90\xdf\xc0\x4a\x18\x02\x20\x04\
    \x02\0\0\0\0\0\0\0\x1c\0\0\0\0\0\0\0\x0a\x0a\x0a\x02/a\x10\0\x1a\x02\x08\0\
    \x0a\x0e\x0a\x02/a\x10\x80\x90\xdf\xc0\x4a\x1a\x02\x08\0\
    \x03\0\0\0\0\0\0\0\x36\0\0\0\0\0\0\0\
    \x0a\x12\x08\x04\x10\x90\x10\xaa\x06\x0a\x08\x02\x12\x02/a\x1a\0\x22\0\
    \x0a\x14\x08\x01\x10\xa8\x10\xb2\x06\x0c\x08\x02\x10\0\x18\x80\x90\xdf\xc0\x4a\x20\x04\
    \x0a\x0a\x08\x02\x10\xc4\x10\xba\x06\x02\x08\x02";

/// Three messages of 0 on one channel, each in a chunk of its own.
const THREE_SECTIONS: &[u8] = b"\x04\0\0\0\0\0\0\0\x08\0\0\0\0\0\0\0\x0a\x02/a\x12\0\x1a\0\
    \x01\0\0\0\0\0\0\0\x08\0\0\0\0\0\0\0\x08\0\x10\0\x18\x01\x20\x02\
    \x02\0\0\0\0\0\0\0\x0c\0\0\0\0\0\0\0\x0a\x0a\x0a\x02/a\x10\0\x1a\x02\x08\0\
    \x01\0\0\0\0\0\0\0\x10\0\0\0\0\0\0\0\
    \x08\x81\x90\xdf\xc0\x4a\x10\x81\x90\xdf\xc0\x4a\x18\x01\x20\x02\
    \x02\0\0\0\0\0\0\0\x10\0\0\0\0\0\0\0\x0a\x0e\x0a\x02/a\x10\x81\x90\xdf\xc0\x4a\x1a\x02\x08\0\
    \x01\0\0\0\0\0\0\0\x12\0\0\0\0\0\0\0\
    \x08\x82\xa0\xbe\x81\x95\x01\x10\x82\xa0\xbe\x81\x95\x01\x18\x01\x20\x02\
    \x02\0\0\0\0\0\0\0\x11\0\0\0\0\0\0\0\
    \x0a\x0f\x0a\x02/a\x10\x82\xa0\xbe\x81\x95\x01\x1a\x02\x08\0\
    \x03\0\0\0\0\0\0\0\x80\0\0\0\0\0\0\0\
    \x0a\x12\x08\x04\x10\x90\x10\xaa\x06\x0a\x08\x03\x12\x02/a\x1a\0\x22\0\
    \x0a\x10\x08\x01\x10\xa8\x10\xb2\x06\x08\x08\x01\x10\0\x18\0\x20\x02\
    \x0a\x0a\x08\x02\x10\xc0\x10\xba\x06\x02\x08\x01\
    \x0a\x18\x08\x01\x10\xdc\x10\xb2\x06\x10\
    \x08\x01\x10\x81\x90\xdf\xc0\x4a\x18\x81\x90\xdf\xc0\x4a\x20\x02\
    \x0a\x0a\x08\x02\x10\xfc\x10\xba\x06\x02\x08\x01\
    \x0a\x1a\x08\x01\x10\x9c\x11\xb2\x06\x12\
    \x08\x01\x10\x82\xa0\xbe\x81\x95\x01\x18\x82\xa0\xbe\x81\x95\x01\x20\x02\
    \x0a\x0a\x08\x02\x10\xbe\x11\xba\x06\x02\x08\x01";

// Writes the message of 7 on two channels.
fn write_one<S: Store>(alloc: Global, store: &mut S) -> Result<(), WriteError> {
    let mut writer = RecordWriter::start(alloc, store, NAME)?;
    writer.channel(alloc, store, "/in", "", b"")?;
    writer.channel(alloc, store, "/out", "", b"")?;
    writer.message(alloc, store, 0, 100, b"\x08\x0e")?;
    writer.message(alloc, store, 1, 100, b"\x08\x0e")?;
    writer.close(alloc, store)
}

// Writes two messages of 0 on one channel, the second at this time.
fn write_two<S: Store>(alloc: Global, store: &mut S, time: u64) -> Result<(), WriteError> {
    let mut writer = RecordWriter::start(alloc, store, NAME)?;
    writer.channel(alloc, store, "/a", "", b"")?;
    writer.message(alloc, store, 0, 0, b"\x08\0")?;
    writer.message(alloc, store, 0, time, b"\x08\0")?;
    writer.close(alloc, store)
}

// Messages of 0 on the first channel, at these times.
#[derive(Drop)]
struct Zeros<'a> {
    times: &'a [u64],
}

impl Messages for Zeros<'_> {
    // Nothing is proved of it, so that its ghost members are left open.
    ghost can_next = { ? };

    ghost shows = { ? };

    fn next(&mut self) -> Result<Option<Stamp>, WriteError> {
        let Some((time, rest)) = self.times.split_first() else {
            return Ok(None);
        };
        self.times = rest;
        Ok(Some(Stamp {
            channel: 0,
            time: *time,
        }))
    }

    fn content(&self) -> &[u8] {
        b"\x08\0"
    }
}

// Writes them by one call, on one channel.
fn write_zeros<S: Store>(alloc: Global, store: &mut S, times: &[u64]) -> Result<(), WriteError> {
    let channels = [ChannelRef {
        name: "/a",
        message_type: "",
        proto_desc: b"",
    }];
    write_record(alloc, store, NAME, &channels, Zeros { times })
}

// Whether the file is this header, zeros up to the sections, and the sections.
fn holds(store: &MemStore, header: &[u8], sections: &[u8]) -> bool {
    let Some(bytes) = store.file(NAME) else {
        return false;
    };
    let (front, rest) = bytes.split_at(bytes.len().min(HEADER_END));
    front.starts_with(header)
        && front[header.len()..].iter().all(|byte| *byte == 0)
        && rest == sections
}

#[test]
fn writes_records_byte_by_byte(rt: HostRuntime) -> Result<(), Fail> {
    let alloc = rt.alloc();
    let mut one = MemStore::new(alloc);
    write_one(alloc, &mut one)?;
    assert!(rt; holds(&one, ONE_HEADER, ONE_SECTIONS));
    for (time, header, sections) in [
        (20_000_000_001, APART_HEADER, APART_SECTIONS),
        (20_000_000_000, NEAR_HEADER, NEAR_SECTIONS),
    ] {
        let mut store = MemStore::new(alloc);
        write_two(alloc, &mut store, time)?;
        assert!(rt; holds(&store, header, sections), "{time}");
        let mut whole = MemStore::new(alloc);
        write_zeros(alloc, &mut whole, &[0, time])?;
        assert!(rt; holds(&whole, header, sections), "{time} by one call");
    }
    Ok(())
}

#[test]
fn stands_as_it_was_before_the_sixth_put(rt: HostRuntime) -> Result<(), Fail> {
    let alloc = rt.alloc();
    let mut store = MemStore::new(alloc);
    store.fail_put(6, 0)?;
    assert_eq!(rt; write_one(alloc, &mut store), Err(WriteError::Failed));
    assert!(rt; holds(&store, OPEN_HEADER, &ONE_SECTIONS[..118]));
    Ok(())
}

#[test]
fn stays_broken_after_a_failure(rt: HostRuntime) -> Result<(), Fail> {
    let alloc = rt.alloc();
    let mut store = MemStore::new(alloc);
    store.fail_put(2, 0)?;
    let mut writer = RecordWriter::start(alloc, &mut store, NAME)?;
    let first = writer.channel(alloc, &mut store, "/in", "", b"");
    assert_eq!(rt; first, Err(WriteError::Failed));
    let second = writer.channel(alloc, &mut store, "/in", "", b"");
    assert_eq!(rt; second, Err(WriteError::Broken));
    let third = writer.message(alloc, &mut store, 0, 100, b"\x08\x0e");
    assert_eq!(rt; third, Err(WriteError::Broken));
    assert_eq!(rt; writer.close(alloc, &mut store), Err(WriteError::Broken));
    assert!(rt; holds(&store, OPEN_HEADER, b""));
    Ok(())
}

// Writes three messages of 0 on one channel, each in a chunk of its own.
fn write_three<S: Store>(alloc: Global, store: &mut S) -> Result<(), WriteError> {
    let mut writer = RecordWriter::start(alloc, store, NAME)?;
    writer.channel(alloc, store, "/a", "", b"")?;
    writer.message(alloc, store, 0, 0, b"\x08\0")?;
    writer.message(alloc, store, 0, 20_000_000_001, b"\x08\0")?;
    writer.message(alloc, store, 0, 40_000_000_002, b"\x08\0")?;
    writer.close(alloc, store)
}

// What stands where this put of three chunks kept so many bytes and failed, behind sections that
// end here.
fn stands(rt: &impl Abort, alloc: Global, put: u64, keep: usize, end: usize) -> Result<(), Fail> {
    let mut store = MemStore::new(alloc);
    store.fail_put(put, keep)?;
    let result = write_three(alloc, &mut store);
    assert_eq!(rt; result, Err(WriteError::Failed), "{put} {keep}");
    let mut whole = MemStore::new(alloc);
    whole.fail_put(put, keep)?;
    let result = write_zeros(alloc, &mut whole, &[0, 20_000_000_001, 40_000_000_002]);
    assert_eq!(rt; result, Err(WriteError::Failed), "{put} {keep} by one call");
    assert!(rt;
        whole.file(NAME) == store.file(NAME),
        "{put} {keep} by one call"
    );
    let bytes = store.file(NAME).unwrap_or_default();
    let (header, sections) = bytes.split_at(bytes.len().min(HEADER_END));
    let is_open = header.starts_with(OPEN_HEADER);
    let open = match put {
        1 => keep == usize::MAX,
        10 => keep == 0,
        _ => true,
    };
    assert_eq!(rt; is_open, open, "{put} {keep}");
    assert!(rt; THREE_SECTIONS.starts_with(sections), "{put} {keep}");
    let next = if put < 10 { keep } else { 0 };
    assert_eq!(rt;
        sections.len() == end,
        put == 1 || next == 0,
        "{put} {keep}"
    );
    Ok(())
}

// The puts are those of the header, the channel, two sections a chunk, the index and the header
// again.
#[test]
fn fails_each_put_in_turn(rt: HostRuntime) -> Result<(), Fail> {
    let alloc = rt.alloc();
    for (put, end) in [
        (1, 0),
        (2, 0),
        (3, 24),
        (4, 48),
        (5, 76),
        (6, 108),
        (7, 140),
        (8, 174),
        (9, 207),
        (10, 351),
    ] {
        for keep in [0, 12, usize::MAX] {
            stands(&rt, alloc, put, keep, end)?;
        }
    }
    let mut whole = MemStore::new(alloc);
    write_three(alloc, &mut whole)?;
    assert_eq!(rt; whole.file(NAME).map(|bytes| bytes.len()), Some(2415));
    Ok(())
}

#[test]
fn fails_each_call_of_a_file_in_one_piece(rt: HostRuntime) -> Result<(), Fail> {
    let alloc = rt.alloc();
    for (call, answer, want) in [
        (1, Err(WriteError::Failed), None),
        (2, Err(WriteError::Failed), Some(b"ab".as_slice())),
        (3, Ok(()), Some(b"abcd".as_slice())),
    ] {
        let mut store = MemStore::new(alloc);
        store.fail_at(call, 2)?;
        assert_eq!(rt; write_file(&mut store, NAME, b"abcd"), answer, "{call}");
        assert_eq!(rt; store.file(NAME), want, "{call}");
    }
    Ok(())
}
