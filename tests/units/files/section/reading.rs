// Sections that are read: odd forms that are accepted, and each fault with its place.
use cy_msg::{Bytes, Items, Text};
use cy_section::{
    BodyMessage, ChunkBody, Header, MessageReader, Piece, SectionError, SectionKind, put_chunk_body,
    put_header, read_channel, read_chunk_body, read_chunk_header, read_head, read_header,
    read_index,
};
use std::test::Fail;

#[test]
fn reads_heads_and_looks_at_no_padding(rt: HostRuntime) {
    for (bytes, want) in [
        (
            b"\x04\x00\x00\x00\xff\xff\xff\xff\x09\x00\x00\x00\x00\x00\x00\x00".as_slice(),
            Ok((SectionKind::Channel, 9)),
        ),
        (
            b"\x03\x00\x00\x00\x00\x00\x00\x00\xff\xff\xff\xff\xff\xff\xff\x7f".as_slice(),
            Ok((SectionKind::Index, 9_223_372_036_854_775_807)),
        ),
        (
            b"\x09\x00\x00\x00\x00\x00\x00\x00\xff\xff\xff\xff\xff\xff\xff\xff".as_slice(),
            Err(SectionError::Kind { at: 2064, value: 9 }),
        ),
        (
            b"\x04\x00\x00\x00\x00\x00\x00\x00\xff\xff\xff\xff\xff\xff\xff\xff".as_slice(),
            Err(SectionError::Size {
                at: 2064,
                value: -1,
            }),
        ),
    ] {
        let answer = read_head(bytes, 2064).map(|head| (head.kind, head.size));
        assert_eq!(rt; answer, want);
    }
}

#[test]
fn reads_a_header_in_any_order_and_its_last_values(rt: HostRuntime) -> Result<(), Fail> {
    // Field 3 twice, an unknown field of each wire type, field 1 as bytes, and a number of 33 bits
    // in a field of 32.
    let body =
        b"\x68\x02\x18\x07\x18\x00\x82\x06\x01a\x81\x06\x01\x02\x03\x04\x05\x06\x07\x08\x85\x06\
          \x01\x02\x03\x04\x0a\x01\x05\x10\x81\x80\x80\x80\x10";
    let want = Header {
        minor_version: 1,
        is_complete: true,
        ..Header::default()
    };
    assert_eq!(rt; read_header(body, 16)?.fields(), want.fields());
    let fault = read_header(b"\x08\x01\x0b", 16).err();
    assert_eq!(rt; fault, Some(SectionError::Wire { at: 18 }));
    let mut piece = Piece::new(rt.alloc());
    put_header(&mut piece, &want)?;
    let header = read_header(&piece.bytes()[16..46], 16)?;
    assert_eq!(rt; header.fields(), want.fields());
    Ok(())
}

#[test]
fn reads_a_chunk_header(rt: HostRuntime) -> Result<(), Fail> {
    let header = read_chunk_header(b"\x18\x02\x10\xac\x02\x08\x64", 2131)?;
    assert_eq!(rt; header.begin_time, 100);
    assert_eq!(rt; header.end_time, 300);
    assert_eq!(rt; header.message_number, 2);
    assert_eq!(rt; header.raw_size, 0);
    let fault = read_chunk_header(b"\x18", 2131).err();
    assert_eq!(rt; fault, Some(SectionError::Wire { at: 2132 }));
    Ok(())
}

#[test]
fn reads_a_channel_and_places_a_name_that_is_no_text(rt: HostRuntime) -> Result<(), Fail> {
    let channel = read_channel(rt.alloc(), b"\x1a\x01d\x12\x01t\x0a\x03/in", 2080)?;
    assert_eq!(rt; channel.name.as_str(), "/in");
    assert_eq!(rt; channel.message_type.as_str(), "t");
    assert_eq!(rt; channel.proto_desc.as_slice(), b"d".as_slice());
    for (body, fault) in [
        (
            b"\x12\x01\xff\x0a\x02\xc3(".as_slice(),
            SectionError::NameNotText { at: 2085 },
        ),
        (
            b"\x12\x01\xff\x0a\x01a".as_slice(),
            SectionError::NameNotText { at: 2082 },
        ),
        (
            b"\x12\x01\xff\x0a\x01\xff\x07".as_slice(),
            SectionError::Wire { at: 2086 },
        ),
    ] {
        let answer = read_channel(rt.alloc(), body, 2080).err();
        assert_eq!(rt; answer, Some(fault));
    }
    Ok(())
}

// The fault at which the first three messages of a body end.
fn fault_of(body: &[u8]) -> Option<SectionError> {
    let mut reader = MessageReader::new(body, 2158);
    for _ in 0..3usize {
        if let Err(fault) = reader.next_message() {
            return Some(fault);
        }
    }
    None
}

#[test]
fn reads_the_messages_of_a_chunk_up_to_the_first_fault(rt: HostRuntime) -> Result<(), Fail> {
    let mut messages = Vec::new(rt.alloc());
    messages.push(BodyMessage {
        channel_name: Text::new(rt.alloc(), "/in")?,
        time: 100,
        content: Bytes::new(rt.alloc(), b"\x08\x0e")?,
    })?;
    let mut piece = Piece::new(rt.alloc());
    put_chunk_body(
        &mut piece,
        &ChunkBody {
            messages: Items::new(messages),
        },
    )?;
    let bytes = piece.bytes().get(16..).ok_or("a body")?;
    let body = read_chunk_body(rt.alloc(), bytes, 2158)?;
    assert_eq!(rt; body.messages.as_slice().len(), 1);
    let mut reader = MessageReader::new(bytes, 2158);
    let message = reader.next_message()?.ok_or("a message")?;
    assert_eq!(rt; message.channel_name, "/in");
    assert_eq!(rt; message.time, 100);
    assert_eq!(rt; message.content, b"\x08\x0e".as_slice());
    assert_eq!(rt; message.content_at, 2169);
    assert!(rt; reader.next_message()?.is_none());
    // A fault inside the second message comes before one behind it, and a field of another number
    // is skipped.
    for (body, fault) in [
        (
            b"\x0a\x00\x10\x05\x0a\x01\x0b\x07".as_slice(),
            SectionError::Wire { at: 2164 },
        ),
        (
            b"\x0a\x03\x0a\x01\xff".as_slice(),
            SectionError::NameNotText { at: 2162 },
        ),
        (
            b"\x0a\x00\x0a\x05\x0a".as_slice(),
            SectionError::Wire { at: 2162 },
        ),
    ] {
        let answer = read_chunk_body(rt.alloc(), body, 2158).err();
        assert_eq!(rt; answer, Some(fault));
        assert_eq!(rt; fault_of(body), Some(fault));
    }
    Ok(())
}

#[test]
fn reads_the_entries_of_an_index(rt: HostRuntime) -> Result<(), Fail> {
    // The four entries of a record of two channels and one chunk.
    let body =
        b"\x0a\x13\x08\x04\x10\x90\x10\xaa\x06\x0b\x08\x01\x12\x03/in\x1a\x00\"\x00\x0a\x14\x08\
          \x04\x10\xa9\x10\xaa\x06\x0c\x08\x01\x12\x04/out\x1a\x00\"\x00\x0a\x10\x08\x01\x10\xc3\
          \x10\xb2\x06\x08\x08\x02\x10d\x18d \x04\x0a\x0a\x08\x02\x10\xdb\x10\xba\x06\x02\x08\
          \x02";
    let index = read_index(rt.alloc(), body, 2198)?;
    let entries = index.entries.as_slice();
    assert_eq!(rt; entries.len(), 4);
    let want = [(4, 2064), (4, 2089), (1, 2115), (2, 2139)];
    for (entry, (kind, position)) in entries.iter().zip(want) {
        assert_eq!(rt; entry.kind, kind);
        assert_eq!(rt; entry.position, position);
        assert_eq!(rt; entry.channel_cache.is_some(), kind == 4);
        assert_eq!(rt; entry.chunk_header_cache.is_some(), kind == 1);
        assert_eq!(rt; entry.chunk_body_cache.is_some(), kind == 2);
    }
    // The first of two caches is not looked at, and the last one is.
    let twice = b"\x0a\x09\xba\x06\x01\x07\xba\x06\x02\x08\x05";
    let index = read_index(rt.alloc(), twice, 2198)?;
    assert_eq!(rt; index.entries.as_slice().len(), 1);
    let faulty = b"\x0a\x09\xba\x06\x02\x08\x05\xba\x06\x01\x07";
    let answer = read_index(rt.alloc(), faulty, 2198).err();
    assert_eq!(rt; answer, Some(SectionError::Wire { at: 2208 }));
    // The name and then the type of a channel's cache.
    for unnamed in [
        b"\x0a\x06\xaa\x06\x03\x12\x01\xff",
        b"\x0a\x06\xaa\x06\x03\x1a\x01\xff",
    ] {
        let answer = read_index(rt.alloc(), unnamed, 2198).err();
        assert_eq!(rt; answer, Some(SectionError::NameNotText { at: 2205 }));
    }
    Ok(())
}
