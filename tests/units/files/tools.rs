//! Tests of `cy_tools`: records that are recovered and split, byte by byte or by their lengths, and
//! calls of the store that fail in turn.
use cy_msg::{Filter, Items, Text};
use cy_reader::{LoadError, load};
use cy_section::SectionError;
use cy_store::{MemStore, Store};
use cy_tools::{File, Parted, Recovered, ToolError, recover, split};
use cy_writer::RecordWriter;
use std::alloc::Global;
use std::test::Fail;

const IN: &str = "in.rec";
const OUT: &str = "out.rec";

// The record of a message of 7 on each of two channels, in 2,271 bytes: its channels' sections end
// at 2,089 and 2,115, the chunk's header at 2,139, and its body at 2,182.
fn two_channels(alloc: Global) -> Result<Vec<u8>, Fail> {
    let mut store = MemStore::new(alloc);
    let mut writer = RecordWriter::start(alloc, &mut store, OUT)?;
    writer.channel(alloc, &mut store, "/in", "", b"")?;
    writer.channel(alloc, &mut store, "/out", "", b"")?;
    writer.message(alloc, &mut store, 0, 100, b"\x08\x0e")?;
    writer.message(alloc, &mut store, 1, 100, b"\x08\x0e")?;
    writer.close(alloc, &mut store)?;
    let bytes = store.file(OUT).ok_or("the record is there")?;
    Ok(bytes.to_vec(alloc)?)
}

// A store with one file.
fn store_of(alloc: Global, bytes: &[u8]) -> Result<MemStore, Fail> {
    let mut store = MemStore::new(alloc);
    store.create(IN)?;
    store.put_at(IN, 0, bytes)?;
    Ok(store)
}

// How long the file is that was written, if it was made.
fn written(store: &MemStore) -> Option<usize> {
    store.file(OUT).map(|bytes| bytes.len())
}

// Channels by their names.
fn names(alloc: Global, all: &[&str]) -> Result<Items<Text>, Fail> {
    let mut texts = Vec::new(alloc);
    for name in all {
        texts.push(Text::new(alloc, name)?)?;
    }
    Ok(Items::new(texts))
}

// The filter of one channel alone.
fn only(alloc: Global, name: &str) -> Result<Filter, Fail> {
    Ok(Filter {
        only: Some(names(alloc, &[name])?),
        drop: names(alloc, &[])?,
        begin: 0,
        end: u64::MAX,
    })
}

#[test]
fn recovers_what_stands_before_each_cut(rt: HostRuntime) -> Result<(), Fail> {
    let bytes = two_channels(rt.alloc())?;
    assert_eq!(rt; bytes.len(), 2_271);
    for (len, messages, dropped, size) in [
        (2_064, 0, 0, 2_080),
        (2_080, 0, 16, 2_080),
        (2_115, 0, 0, 2_080),
        (2_139, 0, 0, 2_080),
        (2_159, 0, 20, 2_080),
        (2_181, 0, 42, 2_080),
        (2_182, 2, 0, 2_271),
        (2_200, 2, 0, 2_271),
        (2_271, 2, 0, 2_271),
    ] {
        let mut store = store_of(rt.alloc(), &bytes[..len])?;
        let made = recover(&rt, rt.alloc(), &mut store, IN, OUT);
        assert_eq!(rt; made, Ok(Recovered { messages, dropped }), "{len}");
        assert_eq!(rt; written(&store), Some(size), "{len}");
    }
    Ok(())
}

// Sections of a chunk's header and chunks without a byte of their own say nothing, and stand whole.
#[test]
fn drops_what_stands_behind_sections_that_say_nothing(rt: HostRuntime) -> Result<(), Fail> {
    let header = b"\x01\0\0\0\0\0\0\0\0\0\0\0\0\0\0\0".as_slice();
    let chunk = b"\x02\0\0\0\0\0\0\0\0\0\0\0\0\0\0\0".as_slice();
    let faulty = b"\x01\0\0\0\0\0\0\0\x01\0\0\0\0\0\0\0\x0b".as_slice();
    let unknown = b"\x09\0\0\0\0\0\0\0\0\0\0\0\0\0\0\0".as_slice();
    for (rest, dropped) in [
        ([header, chunk, header], 0),
        ([header, chunk, faulty], 17),
        ([header, faulty, chunk], 33),
        ([faulty, header, chunk], 49),
        ([chunk, header, unknown], 16),
        ([chunk, unknown, faulty], 33),
        ([faulty, unknown, chunk], 49),
    ] {
        // Two messages stand in front of these sections.
        let mut bytes = two_channels(rt.alloc())?;
        bytes.truncate(2_182);
        for part in rest {
            bytes.extend_from_slice(part)?;
        }
        let mut store = store_of(rt.alloc(), &bytes)?;
        let made = recover(&rt, rt.alloc(), &mut store, IN, OUT);
        assert_eq!(rt; made, Ok(Recovered { messages: 2, dropped }), "{dropped}");
        assert_eq!(rt; written(&store), Some(2_271), "{dropped}");
    }
    Ok(())
}

#[test]
fn recovers_the_record_that_was_cut(rt: HostRuntime) -> Result<(), Fail> {
    let bytes = two_channels(rt.alloc())?;
    let mut store = store_of(rt.alloc(), &bytes[..2_182])?;
    let _made = recover(&rt, rt.alloc(), &mut store, IN, OUT);
    assert_eq!(rt; store.file(OUT), Some(bytes.as_slice()));
    Ok(())
}

#[test]
fn recovers_no_file_that_has_no_header(rt: HostRuntime) -> Result<(), Fail> {
    let bytes = two_channels(rt.alloc())?;
    let cut = LoadError::Section(SectionError::Cut { at: 0 });
    for (len, error) in [
        (0, LoadError::NotRecord),
        (15, LoadError::NotRecord),
        (16, cut),
        (2_063, cut),
    ] {
        let mut store = store_of(rt.alloc(), &bytes[..len])?;
        let made = recover(&rt, rt.alloc(), &mut store, IN, OUT);
        assert_eq!(rt; made, Err(ToolError::Load(error)), "{len}");
        assert_eq!(rt; written(&store), None, "{len}");
    }
    Ok(())
}

#[test]
fn splits_by_channel_and_time(rt: HostRuntime) -> Result<(), Fail> {
    let bytes = two_channels(rt.alloc())?;
    for (drop, begin, end, messages, size) in [
        ("/none", 0, u64::MAX, 2, 2_271),
        ("/out", 0, u64::MAX, 1, 2_209),
        ("/in", 0, u64::MAX, 1, 2_212),
        ("/none", 100, 100, 2, 2_271),
        ("/none", 101, u64::MAX, 0, 2_080),
        ("/none", 0, 99, 0, 2_080),
    ] {
        let filter = Filter {
            only: None,
            drop: names(rt.alloc(), &[drop])?,
            begin,
            end,
        };
        let mut store = store_of(rt.alloc(), bytes.as_slice())?;
        let made = split(&rt, rt.alloc(), &mut store, IN, OUT, &filter);
        assert_eq!(rt; made, Ok(Parted { messages, of: 2 }), "{drop} {begin} {end}");
        assert_eq!(rt; written(&store), Some(size), "{drop} {begin} {end}");
    }
    Ok(())
}

#[test]
fn splits_off_a_record_of_one_channel(rt: HostRuntime) -> Result<(), Fail> {
    let bytes = two_channels(rt.alloc())?;
    let filter = only(rt.alloc(), "/out")?;
    let mut store = store_of(rt.alloc(), bytes.as_slice())?;
    let made = split(&rt, rt.alloc(), &mut store, IN, OUT, &filter);
    assert_eq!(rt; made, Ok(Parted { messages: 1, of: 2 }));
    assert_eq!(rt; written(&store), Some(2_212));
    let part = load(&rt, rt.alloc(), &mut store, OUT)?;
    assert_eq!(rt; part.channels(), 1);
    assert_eq!(rt; part.channel(0).name.as_str(), "/out");
    assert_eq!(rt; part.messages(), 1);
    assert_eq!(rt; part.message(0), (0, 100));
    assert_eq!(rt; part.content(0), b"\x08\x0e".as_slice());
    Ok(())
}

#[test]
fn splits_no_file_that_is_cut(rt: HostRuntime) -> Result<(), Fail> {
    let bytes = two_channels(rt.alloc())?;
    let filter = only(rt.alloc(), "/out")?;
    let mut store = store_of(rt.alloc(), &bytes[..2_159])?;
    let made = split(&rt, rt.alloc(), &mut store, IN, OUT, &filter);
    let cut = LoadError::Section(SectionError::Cut { at: 2_139 });
    assert_eq!(rt; made, Err(ToolError::Load(cut)));
    assert_eq!(rt; written(&store), None);
    Ok(())
}

#[test]
fn names_the_input_that_is_not_there(rt: HostRuntime) -> Result<(), Fail> {
    let filter = only(rt.alloc(), "/out")?;
    let mut store = MemStore::new(rt.alloc());
    let made = recover(&rt, rt.alloc(), &mut store, IN, OUT);
    assert_eq!(rt; made, Err(ToolError::Store(File::Input)));
    let made = split(&rt, rt.alloc(), &mut store, IN, OUT, &filter);
    assert_eq!(rt; made, Err(ToolError::Store(File::Input)));
    assert_eq!(rt; written(&store), None);
    Ok(())
}

#[test]
fn names_the_output_where_a_put_fails(rt: HostRuntime) -> Result<(), Fail> {
    let bytes = two_channels(rt.alloc())?;
    let filter = only(rt.alloc(), "/out")?;
    // The first put is that of the input. A record of two channels and one chunk takes seven more,
    // and one of a single channel six.
    for put in 2..9u64 {
        let mut store = store_of(rt.alloc(), bytes.as_slice())?;
        store.fail_put(put, 0)?;
        let made = recover(&rt, rt.alloc(), &mut store, IN, OUT);
        assert_eq!(rt; made, Err(ToolError::Store(File::Output)), "{put}");
    }
    for put in 2..8u64 {
        let mut store = store_of(rt.alloc(), bytes.as_slice())?;
        store.fail_put(put, 0)?;
        let made = split(&rt, rt.alloc(), &mut store, IN, OUT, &filter);
        assert_eq!(rt; made, Err(ToolError::Store(File::Output)), "{put}");
    }
    Ok(())
}
