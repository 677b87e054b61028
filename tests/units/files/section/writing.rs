// Vectors of a small record: the header, a channel, a chunk of two messages, and the index.
use cy_msg::{Bytes, Items, NamesError, Text};
use cy_section::{
    BodyMessage, Channel, ChannelCache, ChunkBody, ChunkBodyCache, ChunkHeader, ChunkHeaderCache,
    Header, Index, IndexEntry, Piece, SectionError, SectionKind, message_size, put_channel,
    put_chunk_body, put_chunk_header, put_head, put_header, put_index, put_message,
};
use std::alloc::Global;
use std::test::Fail;

fn header() -> Header {
    Header {
        major_version: 1,
        chunk_interval: 20_000_000_000,
        index_position: 2182,
        chunk_number: 1,
        channel_number: 2,
        begin_time: 100,
        end_time: 100,
        message_number: 2,
        size: 2271,
        is_complete: true,
        chunk_raw_size: 200_000_000,
        ..Header::default()
    }
}

const CHUNK_HEADER: ChunkHeader = ChunkHeader {
    begin_time: 100,
    end_time: 100,
    message_number: 2,
    raw_size: 4,
};

fn channel(alloc: Global, name: &str) -> Result<Channel, NamesError> {
    Ok(Channel {
        name: Text::new(alloc, name)?,
        message_type: Text::new(alloc, "")?,
        proto_desc: Bytes::new(alloc, b"")?,
    })
}

fn message(alloc: Global, name: &str) -> Result<BodyMessage, NamesError> {
    Ok(BodyMessage {
        channel_name: Text::new(alloc, name)?,
        time: 100,
        content: Bytes::new(alloc, b"\x08\x0e")?,
    })
}

fn chunk(alloc: Global) -> Result<ChunkBody, NamesError> {
    let mut messages = Vec::new(alloc);
    messages.push(message(alloc, "/in")?)?;
    messages.push(message(alloc, "/out")?)?;
    Ok(ChunkBody {
        messages: Items::new(messages),
    })
}

fn channel_entry(alloc: Global, name: &str, position: u64) -> Result<IndexEntry, NamesError> {
    Ok(IndexEntry {
        kind: 4,
        position,
        channel_cache: Some(ChannelCache {
            message_number: 1,
            name: Text::new(alloc, name)?,
            message_type: Text::new(alloc, "")?,
            proto_desc: Bytes::new(alloc, b"")?,
        }),
        chunk_header_cache: None,
        chunk_body_cache: None,
    })
}

fn index(alloc: Global) -> Result<Index, NamesError> {
    let mut entries = Vec::new(alloc);
    entries.push(channel_entry(alloc, "/in", 2064)?)?;
    entries.push(channel_entry(alloc, "/out", 2089)?)?;
    entries.push(IndexEntry {
        kind: 1,
        position: 2115,
        channel_cache: None,
        chunk_header_cache: Some(ChunkHeaderCache {
            message_number: 2,
            begin_time: 100,
            end_time: 100,
            raw_size: 4,
        }),
        chunk_body_cache: None,
    })?;
    entries.push(IndexEntry {
        kind: 2,
        position: 2139,
        channel_cache: None,
        chunk_header_cache: None,
        chunk_body_cache: Some(ChunkBodyCache { message_number: 2 }),
    })?;
    Ok(Index {
        entries: Items::new(entries),
    })
}

/// Appends the section of this kind of the small record.
fn put(alloc: Global, to: &mut Piece, kind: SectionKind) -> Result<(), Fail> {
    match kind {
        SectionKind::Header => put_header(to, &header())?,
        SectionKind::ChunkHeader => put_chunk_header(to, &CHUNK_HEADER)?,
        SectionKind::ChunkBody => put_chunk_body(to, &chunk(alloc)?)?,
        SectionKind::Index => put_index(to, &index(alloc)?)?,
        SectionKind::Channel => put_channel(to, &channel(alloc, "/in")?)?,
    }
    Ok(())
}

#[test]
fn writes_each_section_of_a_small_record(rt: HostRuntime) -> Result<(), Fail> {
    let mut piece = Piece::new(rt.alloc());
    for (kind, want, zeros) in [
        (
            SectionKind::Header,
            b"\0\0\0\0\0\0\0\0\x27\0\0\0\0\0\0\0\
              \x08\x01\x10\0\x18\0\x20\x80\x90\xdf\xc0\x4a\x28\0\x30\x86\x11\x38\x01\x40\x02\x48\
              \x64\x50\x64\
              \x58\x02\x60\xdf\x11\x68\x01\x70\x80\x84\xaf\x5f\x78\0"
                .as_slice(),
            2009,
        ),
        (
            SectionKind::Channel,
            b"\x04\0\0\0\0\0\0\0\x09\0\0\0\0\0\0\0\x0a\x03/in\x12\0\x1a\0".as_slice(),
            0,
        ),
        (
            SectionKind::ChunkHeader,
            b"\x01\0\0\0\0\0\0\0\x08\0\0\0\0\0\0\0\x08\x64\x10\x64\x18\x02\x20\x04".as_slice(),
            0,
        ),
        (
            SectionKind::ChunkBody,
            b"\x02\0\0\0\0\0\0\0\x1b\0\0\0\0\0\0\0\
              \x0a\x0b\x0a\x03/in\x10\x64\x1a\x02\x08\x0e\x0a\x0c\x0a\x04/out\x10\x64\x1a\x02\
              \x08\x0e"
                .as_slice(),
            0,
        ),
        (
            SectionKind::Index,
            b"\x03\0\0\0\0\0\0\0\x49\0\0\0\0\0\0\0\
              \x0a\x13\x08\x04\x10\x90\x10\xaa\x06\x0b\x08\x01\x12\x03/in\x1a\0\x22\0\
              \x0a\x14\x08\x04\x10\xa9\x10\xaa\x06\x0c\x08\x01\x12\x04/out\x1a\0\x22\0\
              \x0a\x10\x08\x01\x10\xc3\x10\xb2\x06\x08\x08\x02\x10\x64\x18\x64\x20\x04\
              \x0a\x0a\x08\x02\x10\xdb\x10\xba\x06\x02\x08\x02"
                .as_slice(),
            0,
        ),
    ] {
        piece.clear();
        put(rt.alloc(), &mut piece, kind)?;
        let (front, rest) = piece.bytes().split_at(piece.bytes().len().min(want.len()));
        assert_eq!(rt; front, want, "{kind:?}");
        assert_eq!(rt; rest.len(), zeros, "{kind:?}");
        assert!(rt; rest.iter().all(|byte| *byte == 0), "{kind:?}");
    }
    Ok(())
}

#[test]
fn writes_messages_one_by_one(rt: HostRuntime) -> Result<(), Fail> {
    let mut piece = Piece::new(rt.alloc());
    put_head(&mut piece, SectionKind::ChunkBody, 27)?;
    for (name, end) in [("/in", 29), ("/out", 43)] {
        let size = message_size(name, 100, b"\x08\x0e") as usize;
        piece.reserve(size)?;
        put_message(&mut piece, name, 100, b"\x08\x0e")?;
        assert_eq!(rt; piece.bytes().len(), end, "{name}");
    }
    let mut whole = Piece::new(rt.alloc());
    put(rt.alloc(), &mut whole, SectionKind::ChunkBody)?;
    assert_eq!(rt; piece.into_vec().as_slice(), whole.bytes());
    assert_eq!(rt; message_size("/in", 100, b"\x08\x0e"), 13);
    assert_eq!(rt; message_size("/out", 100, b"\x08\x0e"), 14);
    Ok(())
}

/// Holds also where allocations fail.
#[test]
fn writes_all_or_nothing(rt: HostRuntime) {
    let mut piece = Piece::new(rt.alloc());
    let header = put_header(&mut piece, &header());
    let before = piece.bytes().len();
    assert_eq!(rt; before, if header.is_ok() { 2064 } else { 0 });
    let message = put_message(&mut piece, "/in", 100, b"\x08\x0e");
    let after = piece.bytes().len();
    assert_eq!(rt; after, if message.is_ok() { before + 13 } else { before });
    for result in [header, message] {
        assert!(rt;
            result == Ok(()) || result == Err(SectionError::Memory),
            "{result:?}"
        );
    }
}
