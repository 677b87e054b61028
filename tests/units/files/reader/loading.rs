// Records that are loaded, and files that are refused.
use cy_reader::{LoadError, Record, load, load_whole};
use cy_section::SectionError;
use cy_store::{MemStore, Store};
use cy_writer::RecordWriter;
use std::alloc::Global;
use std::test::Fail;
use std::thread::Threads;

// A store with one file.
fn store_of(alloc: Global, bytes: &[u8]) -> Result<MemStore, Fail> {
    let mut store = MemStore::new(alloc);
    store.create("in.rec")?;
    store.put_at("in.rec", 0, bytes)?;
    Ok(store)
}

// The record of one message on `/in` at 100 with the value 7, in 2,209 bytes.
fn small_record(alloc: Global) -> Result<Vec<u8>, Fail> {
    let mut store = MemStore::new(alloc);
    let mut writer = RecordWriter::start(alloc, &mut store, "in.rec")?;
    writer.channel(alloc, &mut store, "/in", "", b"")?;
    writer.message(alloc, &mut store, 0, 100, b"\x08\x0e")?;
    writer.close(alloc, &mut store)?;
    let bytes = store.file("in.rec").ok_or("the record is there")?;
    Ok(bytes.to_vec(alloc)?)
}

// What loading some bytes came to: the number of messages, or the refusal.
fn loaded(
    rt: &(impl Threads + Sync),
    alloc: Global,
    bytes: &[u8],
) -> Result<Result<u32, LoadError>, Fail> {
    let mut store = store_of(alloc, bytes)?;
    Ok(load(rt, alloc, &mut store, "in.rec").map(|record: Record| record.messages()))
}

// The same where the file is read whole first.
fn loaded_whole(alloc: Global, bytes: &[u8]) -> Result<Result<u32, LoadError>, Fail> {
    let mut store = store_of(alloc, bytes)?;
    Ok(load_whole(alloc, &mut store, "in.rec").map(|record: Record| record.messages()))
}

// A valid header of 2,064 bytes and what follows it.
fn behind_header(alloc: Global, rest: &[u8]) -> Result<Vec<u8>, Fail> {
    let mut bytes = small_record(alloc)?;
    bytes.truncate(2_064);
    bytes.extend_from_slice(rest)?;
    Ok(bytes)
}

#[test]
fn loads_the_message_of_a_small_record(rt: HostRuntime) -> Result<(), Fail> {
    let bytes = small_record(rt.alloc())?;
    assert_eq!(rt; bytes.len(), 2_209);
    let mut store = store_of(rt.alloc(), bytes.as_slice())?;
    let record = load(&rt, rt.alloc(), &mut store, "in.rec")?;
    assert_eq!(rt; record.channels(), 1);
    assert_eq!(rt; record.messages(), 1);
    assert_eq!(rt; record.channel(0).name.as_str(), "/in");
    assert_eq!(rt; record.message(0), (0, 100));
    assert_eq!(rt; record.content(0), b"\x08\x0e".as_slice());
    Ok(())
}

// What the first bytes of the small record come to. It has the header of 16 + 2,048 bytes, the
// channel of 16 + 9 at 2,064, the header of the chunk of 16 + 8 at 2,089, its body of 16 + 13 at
// 2,113, and at 2,142 the head of the index, which ends at 2,158. Nothing behind that head is read.
fn wanted_of_front(length: usize) -> Result<u32, LoadError> {
    let cut = |at: u64| Err(LoadError::Section(SectionError::Cut { at }));
    match length {
        0..=15 => Err(LoadError::NotRecord),
        16..=2_063 => cut(0),
        2_065..=2_088 => cut(2_064),
        2_090..=2_112 => cut(2_089),
        2_114..=2_141 => cut(2_113),
        2_143..=2_157 => cut(2_142),
        2_064 | 2_089 | 2_113 => Ok(0),
        _ => Ok(1),
    }
}

#[test]
fn refuses_each_cut_inside_a_section(rt: HostRuntime) -> Result<(), Fail> {
    let bytes = small_record(rt.alloc())?;
    for length in 0..=2_209 {
        let front = &bytes[..length];
        let want = wanted_of_front(length);
        assert_eq!(rt; loaded(&rt, rt.alloc(), front)?, want, "{length}");
        assert_eq!(rt; loaded_whole(rt.alloc(), front)?, want, "{length}");
    }
    Ok(())
}

#[test]
fn refuses_each_fault_of_a_section(rt: HostRuntime) -> Result<(), Fail> {
    for (rest, fault) in [
        (
            b"\x04\0\0\0\0\0\0\0\x09\0\0\0\0\0\0\0\x0a\x03/in\x12\0\x1a".as_slice(),
            SectionError::Cut { at: 2_064 },
        ),
        (
            b"\x04\0\0\0\0\0\0\0\xff\xff\xff\xff\xff\xff\xff\xff".as_slice(),
            SectionError::Size {
                at: 2_064,
                value: -1,
            },
        ),
        (
            b"\x09\0\0\0\0\0\0\0\0\0\0\0\0\0\0\0".as_slice(),
            SectionError::Kind {
                at: 2_064,
                value: 9,
            },
        ),
        (
            b"\0\0\0\0\0\0\0\0\xff\xff\xff\xff\xff\xff\xff\xff".as_slice(),
            SectionError::Kind {
                at: 2_064,
                value: 0,
            },
        ),
        (
            b"\x02\0\0\0\0\0\0\0\x01\0\0\x20\0\0\0\0".as_slice(),
            SectionError::TooLong {
                at: 2_064,
                value: 536_870_913,
            },
        ),
        (
            b"\x02\0\0\0\0\0\0\0\x04\0\0\0\0\0\0\0\x0a\0\x0a\x07".as_slice(),
            SectionError::Wire { at: 2_084 },
        ),
        (
            b"\x04\0\0\0\0\0\0\0\x03\0\0\0\0\0\0\0\x0a\x01\xff".as_slice(),
            SectionError::NameNotText { at: 2_082 },
        ),
    ] {
        let bytes = behind_header(rt.alloc(), rest)?;
        assert_eq!(rt;
            loaded(&rt, rt.alloc(), bytes.as_slice())?,
            Err(LoadError::Section(fault))
        );
    }
    Ok(())
}

#[test]
fn accepts_sections_in_any_order(rt: HostRuntime) -> Result<(), Fail> {
    // A message before its channel's section, which is given twice, no chunk header, padding that
    // is not zero, and bytes behind the head of an index.
    let rest = b"\x02\0\0\0\xff\0\0\0\x09\0\0\0\0\0\0\0\x0a\x07\x10\x05\x0a\x01b\x1a\0\
        \x04\0\0\0\0\0\0\0\x06\0\0\0\0\0\0\0\x0a\x01b\x12\x01t\
        \x04\0\0\0\0\0\0\0\x06\0\0\0\0\0\0\0\x0a\x01b\x12\x01u\
        \x03\0\0\0\0\0\0\0\xff\0\0\0\0\0\0\0rest";
    let bytes = behind_header(rt.alloc(), rest)?;
    let mut store = store_of(rt.alloc(), bytes.as_slice())?;
    let record = load(&rt, rt.alloc(), &mut store, "in.rec")?;
    assert_eq!(rt; record.channels(), 1);
    assert_eq!(rt; record.messages(), 1);
    assert_eq!(rt; record.channel(0).message_type.as_str(), "t");
    assert_eq!(rt; record.message(0), (0, 5));
    assert_eq!(rt; record.content(0), b"".as_slice());
    Ok(())
}

#[test]
fn refuses_headers_and_limits(rt: HostRuntime) -> Result<(), Fail> {
    let mut compressed = small_record(rt.alloc())?;
    compressed[21] = 2;
    assert_eq!(rt;
        loaded(&rt, rt.alloc(), compressed.as_slice())?,
        Err(LoadError::Compressed { kind: 2 })
    );
    let mut sized = small_record(rt.alloc())?;
    sized[9] = 9;
    assert_eq!(rt;
        loaded(&rt, rt.alloc(), sized.as_slice())?,
        Err(LoadError::Section(SectionError::Size {
            at: 0,
            value: 2_343
        }))
    );
    let mut long = behind_header(
        rt.alloc(),
        b"\x04\0\0\0\0\0\0\0\x04\x10\0\0\0\0\0\0\x0a\x81\x20",
    )?;
    long.resize(2_064 + 16 + 4_100, b'n')?;
    assert_eq!(rt;
        loaded(&rt, rt.alloc(), long.as_slice())?,
        Err(LoadError::NameTooLong { count: 4_097 })
    );
    Ok(())
}

#[test]
fn answers_a_failing_store(rt: HostRuntime) -> Result<(), Fail> {
    let bytes = small_record(rt.alloc())?;
    for call in [3, 4] {
        let mut store = store_of(rt.alloc(), bytes.as_slice())?;
        store.fail_at(call, 0)?;
        let answer = load(&rt, rt.alloc(), &mut store, "in.rec").err();
        assert_eq!(rt; answer, Some(LoadError::Store), "{call}");
    }
    let mut empty = MemStore::new(rt.alloc());
    let answer = load(&rt, rt.alloc(), &mut empty, "in.rec").err();
    assert_eq!(rt; answer, Some(LoadError::Store));
    Ok(())
}
