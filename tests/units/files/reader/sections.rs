// Records that are read section by section, and whole.
use cy_info::info_text;
use cy_reader::{LoadError, Record, load, load_whole};
use cy_section::SectionError;
use cy_store::{MemStore, Store, StoreError};
use cy_wire::whole_bytes;
use cy_writer::RecordWriter;
use std::alloc::Global;
use std::process::Abort;
use std::test::Fail;
use std::thread::Threads;

// A store that notes what is read of it: how often, the longest piece, and how many bytes in all.
#[derive(Drop)]
struct Noting {
    inner: MemStore,
    reads: u64,
    longest: usize,
    lent: u64,
}

impl Store for Noting {
    // Nothing is proved of it, so that its ghost member is left open.
    ghost shows = { ? };

    fn size(&mut self, name: &str) -> Result<u64, StoreError> {
        self.inner.size(name)
    }

    fn read_at(&mut self, name: &str, at: u64, buf: &mut [u8]) -> Result<usize, StoreError> {
        self.reads += 1;
        self.longest = self.longest.max(buf.len());
        let read = self.inner.read_at(name, at, buf)?;
        self.lent += read as u64;
        Ok(read)
    }

    fn create(&mut self, _name: &str) -> Result<(), StoreError> {
        Err(StoreError::Failed)
    }

    fn put_at(&mut self, _name: &str, _at: u64, _bytes: &[u8]) -> Result<(), StoreError> {
        Err(StoreError::Failed)
    }

    fn same(&mut self, name: &str, other: &str) -> bool {
        self.inner.same(name, other)
    }
}

// A store that notes, with one file.
fn noting(alloc: Global, bytes: &[u8]) -> Result<Noting, Fail> {
    Ok(Noting {
        inner: store_of(alloc, bytes)?,
        reads: 0,
        longest: 0,
        lent: 0,
    })
}

// A store with one file.
fn store_of(alloc: Global, bytes: &[u8]) -> Result<MemStore, Fail> {
    let mut store = MemStore::new(alloc);
    store.create("in.rec")?;
    store.put_at("in.rec", 0, bytes)?;
    Ok(store)
}

// The record of these messages on `/a`, each a time in seconds and the bytes of its content.
fn record_of(alloc: Global, messages: &[(u64, usize)]) -> Result<Vec<u8>, Fail> {
    let mut store = MemStore::new(alloc);
    let mut writer = RecordWriter::start(alloc, &mut store, "in.rec")?;
    writer.channel(alloc, &mut store, "/a", "", b"")?;
    for (seconds, size) in messages {
        let content = vec![in alloc; 7u8; *size]?;
        writer.message(alloc, &mut store, 0, *seconds * 1_000_000_000, &content)?;
    }
    writer.close(alloc, &mut store)?;
    let bytes = store.file("in.rec").ok_or("the record is there")?;
    Ok(bytes.to_vec(alloc)?)
}

// The record that `make` writes of so many messages.
fn made_record(alloc: Global, count: i64) -> Result<Vec<u8>, Fail> {
    let mut store = MemStore::new(alloc);
    let mut writer = RecordWriter::start(alloc, &mut store, "in.rec")?;
    writer.channel(alloc, &mut store, "/a", "", b"")?;
    writer.channel(alloc, &mut store, "/b", "", b"")?;
    for k in 1..=count {
        let channel = if k % 3 == 0 { 1 } else { 0 };
        let content = whole_bytes(alloc, (7 * k * k + 13 * k) % 2_001 - 1_000)?;
        let time = 1_000_000 * k.cast_unsigned();
        writer.message(alloc, &mut store, channel, time, content.done())?;
    }
    writer.close(alloc, &mut store)?;
    let bytes = store.file("in.rec").ok_or("the record is there")?;
    Ok(bytes.to_vec(alloc)?)
}

// A valid header of 2,064 bytes, and what follows it, with zeros up to a length.
fn behind_header(alloc: Global, rest: &[u8], size: usize) -> Result<Vec<u8>, Fail> {
    let mut bytes = record_of(alloc, &[])?;
    bytes.truncate(2_064);
    bytes.extend_from_slice(rest)?;
    bytes.resize(size, 0)?;
    Ok(bytes)
}

// Whether two records have the same channels, messages and contents.
fn are_alike(one: &Record, other: &Record) -> bool {
    if one.channels() != other.channels() || one.messages() != other.messages() {
        return false;
    }
    (0..one.channels()).all(|n| one.channel(n).name.as_str() == other.channel(n).name.as_str())
        && (0..one.messages())
            .all(|n| one.message(n) == other.message(n) && one.content(n) == other.content(n))
}

// What both readings of some bytes answer, which is the same.
fn answers(
    rt: &(impl Abort + Threads + Sync),
    alloc: Global,
    bytes: &[u8],
) -> Result<Option<LoadError>, Fail> {
    let mut store = store_of(alloc, bytes)?;
    let read = load(rt, alloc, &mut store, "in.rec");
    let whole = load_whole(alloc, &mut store, "in.rec");
    match (read, whole) {
        (Ok(one), Ok(other)) => {
            assert!(rt; are_alike(&one, &other));
            let (one, other) = (info_text(alloc, &one)?, info_text(alloc, &other)?);
            assert_eq!(rt; one.as_slice(), other.as_slice());
            Ok(None)
        }
        (read, whole) => {
            let (read, whole) = (read.err(), whole.err());
            assert_eq!(rt; read, whole);
            Ok(read)
        }
    }
}

// Three chunks, since more than 20 seconds stand between their messages.
const THREE_CHUNKS: &[(u64, usize)] = &[(0, 3), (0, 0), (30, 2_500_000), (60, 1)];

#[test]
fn agrees_with_the_reading_whole(rt: HostRuntime) -> Result<(), Fail> {
    let chunks = record_of(rt.alloc(), THREE_CHUNKS)?;
    assert_eq!(rt; answers(&rt, rt.alloc(), chunks.as_slice())?, None);
    assert_eq!(rt; answers(&rt, rt.alloc(), made_record(rt.alloc(), 3_000)?.as_slice())?, None);
    let bytes = record_of(rt.alloc(), &[(1, 2), (50, 3)])?;
    for size in 0..bytes.len() {
        answers(&rt, rt.alloc(), &bytes[..size])?;
    }
    Ok(())
}

#[test]
fn answers_the_first_fault_in_the_order_of_the_file(rt: HostRuntime) -> Result<(), Fail> {
    let mut bytes = record_of(rt.alloc(), &[(0, 1), (30, 2), (60, 3)])?;
    // A tag of type 3, which is a group's, in the third chunk, and then in the second too.
    let places = places_of_bodies(rt.alloc(), bytes.as_slice())?;
    assert_eq!(rt; places.len(), 3);
    for place in [places[2], places[1]] {
        bytes[place] = 0x0b;
        let at = place as u64;
        let fault = LoadError::Section(SectionError::Wire { at });
        assert_eq!(rt; answers(&rt, rt.alloc(), bytes.as_slice())?, Some(fault));
    }
    Ok(())
}

// The section of a chunk's body that has a message of 300 bytes on a channel of each of these
// numbers, which is its name: 314 bytes each.
fn numbered_chunk(alloc: Global, from: u64, to: u64) -> Result<Vec<u8>, Fail> {
    let mut section = b"\x02\0\0\0\0\0\0\0".to_vec(alloc)?;
    section.extend_from_slice((314 * (to - from)).to_le_bytes().as_slice())?;
    for number in from..to {
        let name = format!(in alloc; "{number:04}")?;
        section.extend_from_slice(b"\x0a\xb7\x02\x0a\x04")?;
        section.extend_from_slice(name.as_bytes())?;
        section.extend_from_slice(b"\x10\0\x1a\xac\x02")?;
        section.resize(section.len() + 300, 7)?;
    }
    Ok(section)
}

// The bodies are long enough to be decoded by themselves, and together worth threads.
#[test]
fn meets_limits_and_faults_of_long_bodies_in_the_order_of_the_file(
    rt: HostRuntime,
) -> Result<(), Fail> {
    let alloc = rt.alloc();
    let many = Some(LoadError::TooManyChannels);
    let wire = |at: u64| Some(LoadError::Section(SectionError::Wire { at }));
    let last = 2_064 + 3 * 16 + 314 * 1_024;
    // The channels of each of three bodies, which body begins with a tag of type 3, if one does, and
    // what is answered.
    for (channels, faulty, want) in [
        ([(0, 600), (600, 1_024), (0, 900)], None, None),
        ([(0, 600), (600, 1_024), (0, 900)], Some(2), wire(last)),
        ([(0, 600), (600, 1_025), (0, 900)], None, many),
        ([(0, 600), (600, 1_025), (0, 900)], Some(2), many),
        ([(0, 600), (600, 1_025), (0, 900)], Some(0), wire(2_080)),
        ([(0, 600), (0, 600), (599, 1_024)], None, None),
        ([(0, 600), (0, 600), (599, 1_025)], None, many),
        ([(0, 1_025), (0, 1), (0, 1)], None, many),
        ([(0, 1_025), (0, 1), (0, 1)], Some(0), wire(2_080)),
    ] {
        let mut bytes = behind_header(alloc, b"", 2_064)?;
        for (number, (from, to)) in channels.into_iter().enumerate() {
            let place = bytes.len() + 16;
            bytes.extend_from_slice(numbered_chunk(alloc, from, to)?.as_slice())?;
            if faulty == Some(number) {
                bytes[place] = 0x0b;
            }
        }
        assert_eq!(rt; answers(&rt, alloc, bytes.as_slice())?, want);
    }
    Ok(())
}

// The places of the chunks' bodies, by the heads of a whole record.
fn places_of_bodies(alloc: Global, bytes: &[u8]) -> Result<Vec<usize>, Fail> {
    let mut places = Vec::new(alloc);
    let mut at = 2_064;
    while bytes[at] != 3 {
        if bytes[at] == 2 {
            places.push(at + 16)?;
        }
        let size = u16::from(bytes[at + 8]) + 256 * u16::from(bytes[at + 9]);
        at += 16 + usize::from(size);
    }
    Ok(places)
}

#[test]
fn reads_no_more_than_it_needs(rt: HostRuntime) -> Result<(), Fail> {
    // The head of a type that there is none of.
    let head = [9, 0, 0, 0];
    let bytes = behind_header(rt.alloc(), head.as_slice(), 16_777_216)?;
    let mut store = store_of(rt.alloc(), bytes.as_slice())?;
    // The store was called twice before.
    store.fail_at(18, 0)?;
    let fault = LoadError::Section(SectionError::Kind { at: 2_064, value: 9 });
    let answer = load(&rt, rt.alloc(), &mut store, "in.rec").err();
    assert_eq!(rt; answer, Some(fault));
    Ok(())
}

#[test]
fn reads_nothing_of_a_section_that_is_too_long_or_cut(rt: HostRuntime) -> Result<(), Fail> {
    // A channel's head with the last four bytes of its size, and what is answered.
    let too_long = SectionError::TooLong {
        at: 2_064,
        value: 536_870_913,
    };
    let cut = SectionError::Cut { at: 2_064 };
    for (size, fault) in [([1, 0, 0, 32], too_long), ([0, 0, 0, 32], cut)] {
        let [a, b, c, d] = size;
        let head = [4, 0, 0, 0, 0, 0, 0, 0, a, b, c, d, 0, 0, 0, 0];
        let bytes = behind_header(rt.alloc(), head.as_slice(), 3_000)?;
        let mut store = noting(rt.alloc(), bytes.as_slice())?;
        let answer = load(&rt, rt.alloc(), &mut store, "in.rec").err();
        assert_eq!(rt; answer, Some(LoadError::Section(fault)));
        // The header's section, and the head: nothing is read ahead of the first one.
        assert_eq!(rt; store.lent, 2_080);
    }
    Ok(())
}

// So many sections of a chunk's header, which have no byte of their own.
fn empty_sections(alloc: Global, count: usize) -> Result<Vec<u8>, Fail> {
    let mut bytes = Vec::new(alloc);
    for _ in 0..count {
        bytes.extend_from_slice(b"\x01\0\0\0\0\0\0\0\0\0\0\0\0\0\0\0")?;
    }
    Ok(bytes)
}

// What is read ahead begins with 16 bytes and doubles up to 65,536.
#[test]
fn reads_many_small_sections_at_once(rt: HostRuntime) -> Result<(), Fail> {
    let alloc = rt.alloc();
    let mut bytes = behind_header(alloc, b"", 2_064)?;
    bytes.extend_from_slice(empty_sections(alloc, 12_000)?.as_slice())?;
    let mut store = noting(alloc, bytes.as_slice())?;
    let record = load(&rt, alloc, &mut store, "in.rec")?;
    assert_eq!(rt; record.messages(), 0);
    assert_eq!(rt; store.longest, 65_536);
    assert_eq!(rt; store.lent, bytes.len() as u64);
    // The header, twelve pieces that double, and two for the other 126,480 bytes.
    assert_eq!(rt; store.reads, 15);
    Ok(())
}

// A body has 314 bytes for each message: 52 of them are read with the sections behind them, and 53
// by themselves.
#[test]
fn agrees_with_the_reading_whole_on_bodies_of_each_length(rt: HostRuntime) -> Result<(), Fail> {
    let alloc = rt.alloc();
    for (empty, messages) in [
        (0, 1),
        (0, 52),
        (0, 53),
        (0, 210),
        (1, 52),
        (1, 53),
        (7, 1),
        (7, 210),
        (300, 52),
        (300, 53),
        (300, 210),
    ] {
        let mut bytes = behind_header(alloc, b"", 2_064)?;
        bytes.extend_from_slice(empty_sections(alloc, empty)?.as_slice())?;
        bytes.extend_from_slice(numbered_chunk(alloc, 0, messages)?.as_slice())?;
        bytes.extend_from_slice(empty_sections(alloc, 2)?.as_slice())?;
        bytes.extend_from_slice(numbered_chunk(alloc, 0, 1)?.as_slice())?;
        assert_eq!(rt; answers(&rt, alloc, bytes.as_slice())?, None, "{empty} {messages}");
        let mut store = noting(alloc, bytes.as_slice())?;
        let record = load(&rt, alloc, &mut store, "in.rec")?;
        assert_eq!(rt; u64::from(record.messages()), messages + 1, "{empty} {messages}");
        assert_eq!(rt; store.lent, bytes.len() as u64, "{empty} {messages}");
    }
    Ok(())
}

// A faulty chunk header stands behind sections that say nothing, and in front of a message.
#[test]
fn answers_the_fault_of_a_small_section(rt: HostRuntime) -> Result<(), Fail> {
    let alloc = rt.alloc();
    for empty in [0, 1, 40] {
        let mut bytes = behind_header(alloc, b"", 2_064)?;
        bytes.extend_from_slice(empty_sections(alloc, empty)?.as_slice())?;
        let at = bytes.len() as u64 + 16;
        bytes.extend_from_slice(b"\x01\0\0\0\0\0\0\0\x01\0\0\0\0\0\0\0\x0b")?;
        bytes.extend_from_slice(numbered_chunk(alloc, 0, 1)?.as_slice())?;
        let fault = LoadError::Section(SectionError::Wire { at });
        assert_eq!(rt; answers(&rt, alloc, bytes.as_slice())?, Some(fault), "{empty}");
    }
    Ok(())
}

#[test]
fn reads_a_file_once_in_pieces(rt: HostRuntime) -> Result<(), Fail> {
    let bytes = record_of(rt.alloc(), THREE_CHUNKS)?;
    let mut store = noting(rt.alloc(), bytes.as_slice())?;
    let record = load(&rt, rt.alloc(), &mut store, "in.rec")?;
    assert_eq!(rt; record.messages(), 4);
    assert_eq!(rt; store.longest, 1_048_576);
    assert_eq!(rt; store.lent, bytes.len() as u64);
    Ok(())
}
