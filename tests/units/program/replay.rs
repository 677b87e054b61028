// Records of tapes, byte by byte.
use crate::records::HEADER_END;
use cy_comp::{Answer, Answers, Kind, Options, Plan, Wiring};
use cy_fuse::Overflow;
use cy_msg::{Bytes, Items, Names, PlayList, Text, Token};
use cy_reader::{Record, load_whole};
use cy_recording::{Played, write_record};
use cy_store::MemStore;
use cy_writer::{RecordWriter, WriteError};
use std::test::Fail;

/// The played message on `/in`, and behind it one on `/out` with the value -1.
const BOTH_HEADER: &[u8] = b"\0\0\0\0\0\0\0\0\x27\0\0\0\0\0\0\0\
    \x08\x01\x10\0\x18\0\x20\x80\x90\xdf\xc0\x4a\x28\0\x30\x89\x11\x38\x01\x40\x02\x48\x64\x50\x64\
    \x58\x02\x60\xe5\x11\x68\x01\x70\x80\x84\xaf\x5f\x78\0";

const BOTH_SECTIONS: &[u8] = b"\x04\0\0\0\0\0\0\0\x0b\0\0\0\0\0\0\0\x0a\x03/in\x12\x01T\x1a\x01D\
    \x04\0\0\0\0\0\0\0\x0b\0\0\0\0\0\0\0\x0a\x04/out\x12\x01U\x1a\0\
    \x01\0\0\0\0\0\0\0\x08\0\0\0\0\0\0\0\x08\x64\x10\x64\x18\x02\x20\x04\
    \x02\0\0\0\0\0\0\0\x1b\0\0\0\0\0\0\0\
    \x0a\x0b\x0a\x03/in\x10\x64\x1a\x02\x08\x0e\x0a\x0c\x0a\x04/out\x10\x64\x1a\x02\x08\x01\
    \x03\0\0\0\0\0\0\0\x4c\0\0\0\0\0\0\0\
    \x0a\x15\x08\x04\x10\x90\x10\xaa\x06\x0d\x08\x01\x12\x03/in\x1a\x01T\x22\x01D\
    \x0a\x15\x08\x04\x10\xab\x10\xaa\x06\x0d\x08\x01\x12\x04/out\x1a\x01U\x22\0\
    \x0a\x10\x08\x01\x10\xc6\x10\xb2\x06\x08\x08\x02\x10\x64\x18\x64\x20\x04\
    \x0a\x0a\x08\x02\x10\xde\x10\xba\x06\x02\x08\x02";

/// A message on `/out` without a value, and behind it the played message on `/in`.
const TURNED_HEADER: &[u8] = b"\0\0\0\0\0\0\0\0\x27\0\0\0\0\0\0\0\
    \x08\x01\x10\0\x18\0\x20\x80\x90\xdf\xc0\x4a\x28\0\x30\x87\x11\x38\x01\x40\x02\x48\x64\x50\x64\
    \x58\x02\x60\xe3\x11\x68\x01\x70\x80\x84\xaf\x5f\x78\0";

const TURNED_SECTIONS: &[u8] = b"\x04\0\0\0\0\0\0\0\x0b\0\0\0\0\0\0\0\x0a\x04/out\x12\x01U\x1a\0\
    \x04\0\0\0\0\0\0\0\x0b\0\0\0\0\0\0\0\x0a\x03/in\x12\x01T\x1a\x01D\
    \x01\0\0\0\0\0\0\0\x08\0\0\0\0\0\0\0\x08\x64\x10\x64\x18\x02\x20\x02\
    \x02\0\0\0\0\0\0\0\x19\0\0\0\0\0\0\0\
    \x0a\x0a\x0a\x04/out\x10\x64\x1a\0\x0a\x0b\x0a\x03/in\x10\x64\x1a\x02\x08\x0e\
    \x03\0\0\0\0\0\0\0\x4c\0\0\0\0\0\0\0\
    \x0a\x15\x08\x04\x10\x90\x10\xaa\x06\x0d\x08\x01\x12\x04/out\x1a\x01U\x22\0\
    \x0a\x15\x08\x04\x10\xab\x10\xaa\x06\x0d\x08\x01\x12\x03/in\x1a\x01T\x22\x01D\
    \x0a\x10\x08\x01\x10\xc6\x10\xb2\x06\x08\x08\x02\x10\x64\x18\x64\x20\x02\
    \x0a\x0a\x08\x02\x10\xde\x10\xba\x06\x02\x08\x02";

/// The played message alone.
const ALONE_HEADER: &[u8] = b"\0\0\0\0\0\0\0\0\x27\0\0\0\0\0\0\0\
    \x08\x01\x10\0\x18\0\x20\x80\x90\xdf\xc0\x4a\x28\0\x30\xe0\x10\x38\x01\x40\x01\x48\x64\x50\x64\
    \x58\x01\x60\xa5\x11\x68\x01\x70\x80\x84\xaf\x5f\x78\0";

const ALONE_SECTIONS: &[u8] = b"\x04\0\0\0\0\0\0\0\x0b\0\0\0\0\0\0\0\x0a\x03/in\x12\x01T\x1a\x01D\
    \x01\0\0\0\0\0\0\0\x08\0\0\0\0\0\0\0\x08\x64\x10\x64\x18\x01\x20\x02\
    \x02\0\0\0\0\0\0\0\x0d\0\0\0\0\0\0\0\x0a\x0b\x0a\x03/in\x10\x64\x1a\x02\x08\x0e\
    \x03\0\0\0\0\0\0\0\x35\0\0\0\0\0\0\0\
    \x0a\x15\x08\x04\x10\x90\x10\xaa\x06\x0d\x08\x01\x12\x03/in\x1a\x01T\x22\x01D\
    \x0a\x10\x08\x01\x10\xab\x10\xb2\x06\x08\x08\x01\x10\x64\x18\x64\x20\x02\
    \x0a\x0a\x08\x02\x10\xc3\x10\xba\x06\x02\x08\x01";

/// A record of a message on `/other` and behind it one on `/in`, at 100 with the value 7.
pub fn small_record(rt: &HostRuntime) -> Result<Record, Fail> {
    record_with(rt, b"\x08\x0e")
}

/// The same with another content of the message on `/in`.
pub fn record_with(rt: &HostRuntime, content: &[u8]) -> Result<Record, Fail> {
    let mut store = MemStore::new(rt.alloc());
    let mut writer = RecordWriter::start(rt.alloc(), &mut store, "in.rec")?;
    writer.channel(rt.alloc(), &mut store, "/other", "S", b"")?;
    writer.channel(rt.alloc(), &mut store, "/in", "T", b"D")?;
    writer.message(rt.alloc(), &mut store, 0, 90, b"\x08\x02")?;
    writer.message(rt.alloc(), &mut store, 1, 100, content)?;
    writer.close(rt.alloc(), &mut store)?;
    Ok(load_whole(rt.alloc(), &mut store, "in.rec")?)
}

/// A component that passes `/in` on to `/out`, whose messages have the type `U`.
pub fn pass_wiring(rt: &HostRuntime) -> Result<Wiring, Fail> {
    let mut names = Names::new(rt.alloc());
    names.add(rt.alloc(), "/in")?;
    names.add(rt.alloc(), "/out")?;
    let plan = Plan {
        name: Text::new(rt.alloc(), "pass")?,
        kind: Kind::Pass,
        readers: Items::new(vec![in rt.alloc(); 0]?),
        queue: 1,
        overflow: Overflow::Newest,
        out: 1,
        options: Options::with_type(rt.alloc(), "U")?,
        interval: None,
    };
    Ok(Wiring::of_one(names, Items::new(vec![in rt.alloc(); plan]?)))
}

// A class that has answers with these contents.
fn external(rt: &HostRuntime, contents: &[&[u8]]) -> Result<Kind, Fail> {
    let mut answers = Vec::new(rt.alloc());
    for (place, content) in contents.iter().enumerate() {
        answers.push(Answer {
            call: place as u64 + 1,
            whole: None,
            origin: 8_388_608 + place as u32,
            content: Bytes::new(rt.alloc(), content)?,
        })?;
    }
    Ok(Kind::External {
        answers: Answers::new(answers)?,
    })
}

// Two components that read `/in`: one passes it on to `/p`, and one has answers with these contents
// for `/out`, whose messages have the type `U` and the description `V`.
fn answering_wiring(rt: &HostRuntime, contents: &[&[u8]]) -> Result<Wiring, Fail> {
    let mut names = Names::new(rt.alloc());
    let mut plans = Vec::new(rt.alloc());
    names.add(rt.alloc(), "/in")?;
    names.add(rt.alloc(), "/out")?;
    for (name, kind) in [("/p", Kind::Pass), ("/out", external(rt, contents)?)] {
        let out = names.add(rt.alloc(), name)?;
        let mut options = Options::with_type(rt.alloc(), "U")?;
        options.description = Bytes::new(rt.alloc(), b"V")?;
        plans.push(Plan {
            name: Text::new(rt.alloc(), name)?,
            kind,
            readers: Items::new(vec![in rt.alloc(); 0]?),
            queue: 1,
            overflow: Overflow::Newest,
            out,
            options,
            interval: None,
        })?;
    }
    Ok(Wiring::new(names, Items::new(plans)))
}

/// The played message of `/in`.
pub fn in_message() -> Token {
    Token {
        channel: 0,
        seq: 1,
        time: 100,
        whole: Some(7),
        origin: Some(0),
    }
}

/// A message of `/out` with a value, or without one.
pub fn out_message(whole: Option<i64>) -> Token {
    Token {
        channel: 1,
        seq: 1,
        time: 100,
        whole,
        origin: None,
    }
}

/// The second message of the record, played.
pub fn one_played(rt: &HostRuntime) -> Result<PlayList, Fail> {
    Ok(PlayList {
        tokens: Items::new(vec![in rt.alloc(); in_message()]?),
        places: Items::new(vec![in rt.alloc(); 1]?),
        shadowed: 0,
    })
}

// Writes the record of a tape to a store, and what was answered.
fn write_to(
    rt: &HostRuntime,
    store: &mut MemStore,
    tape: &[Token],
) -> Result<Result<(), WriteError>, Fail> {
    let record = small_record(rt)?;
    let wiring = pass_wiring(rt)?;
    let list = one_played(rt)?;
    let played = Played {
        whole: &record,
        wiring: &wiring,
        list: &list,
    };
    Ok(write_record(rt.alloc(), store, "out.rec", &played, tape))
}

// A store with the record of a tape.
fn write_tape(rt: &HostRuntime, tape: &[Token]) -> Result<MemStore, Fail> {
    let mut store = MemStore::new(rt.alloc());
    write_to(rt, &mut store, tape)??;
    Ok(store)
}

// Whether the file is this header, zeros up to the sections, and the sections.
fn holds(store: &MemStore, header: &[u8], sections: &[u8]) -> bool {
    let Some(bytes) = store.file("out.rec") else {
        return false;
    };
    let (front, rest) = bytes.split_at(bytes.len().min(HEADER_END));
    front.starts_with(header)
        && front[header.len()..].iter().all(|byte| *byte == 0)
        && rest == sections
}

#[test]
fn writes_a_played_and_a_made_message(rt: HostRuntime) -> Result<(), Fail> {
    let store = write_tape(&rt, &[in_message(), out_message(Some(-1))])?;
    assert!(rt; holds(&store, BOTH_HEADER, BOTH_SECTIONS));
    Ok(())
}

#[test]
fn writes_channels_in_the_order_of_their_messages(rt: HostRuntime) -> Result<(), Fail> {
    let store = write_tape(&rt, &[out_message(None), in_message()])?;
    assert!(rt; holds(&store, TURNED_HEADER, TURNED_SECTIONS));
    Ok(())
}

#[test]
fn writes_no_channel_without_a_message(rt: HostRuntime) -> Result<(), Fail> {
    let store = write_tape(&rt, &[in_message()])?;
    assert!(rt; holds(&store, ALONE_HEADER, ALONE_SECTIONS));
    Ok(())
}

// The calls make the file, and put the header twice, two channels, the header and the body of a
// chunk, and the index.
#[test]
fn fails_each_call_in_turn(rt: HostRuntime) -> Result<(), Fail> {
    let tape = [in_message(), out_message(Some(-1))];
    for call in 1..=8 {
        let mut store = MemStore::new(rt.alloc());
        store.fail_at(call, 0)?;
        let answer = write_to(&rt, &mut store, &tape)?;
        assert_eq!(rt; answer, Err(WriteError::Failed), "{call}");
        assert_eq!(rt; store.file("out.rec").is_some(), call > 1, "{call}");
    }
    let mut store = MemStore::new(rt.alloc());
    store.fail_at(9, 0)?;
    assert_eq!(rt; write_to(&rt, &mut store, &tape)?, Ok(()));
    Ok(())
}

#[test]
fn writes_the_contents_of_answers(rt: HostRuntime) -> Result<(), Fail> {
    let record = small_record(&rt)?;
    let wiring = answering_wiring(&rt, &[b"one", b"", b"three"])?;
    let list = one_played(&rt)?;
    let played = Played {
        whole: &record,
        wiring: &wiring,
        list: &list,
    };
    let mut tape = vec![in rt.alloc(); in_message()]?;
    for (place, origin) in [8_388_610u32, 8_388_608, 8_388_609].into_iter().enumerate() {
        tape.push(Token {
            seq: place as u32 + 1,
            origin: Some(origin),
            ..out_message(None)
        })?;
    }
    let mut store = MemStore::new(rt.alloc());
    write_record(rt.alloc(), &mut store, "out.rec", &played, tape.as_slice())?;
    let written = load_whole(rt.alloc(), &mut store, "out.rec")?;
    let contents: [&[u8]; 4] = [b"\x08\x0e", b"three", b"one", b""];
    for (place, content) in contents.iter().enumerate() {
        assert_eq!(rt; written.content(place as u32), *content, "{place}");
    }
    let Some(out) = written.channel_named("/out") else {
        return Err(Fail::from("/out is written"));
    };
    assert_eq!(rt; (out.message_type.as_str(), out.proto_desc.as_slice()), ("U", b"V" as &[u8]));
    Ok(())
}
