// The messages of a record that are played.
use cy_msg::{Filter, Items, Names, NamesError, PlayList, Text, Token};
use cy_play_list::{ChannelSet, play_list};
use cy_reader::{Record, load};
use cy_store::{MemStore, Store};
use cy_value::{ChannelValue, ScalarKind, ValueForm};
use std::alloc::Global;
use std::test::Fail;
use std::thread::Threads;

// A header that is not complete.
const HEADER: &[u8] = b"\0\0\0\0\0\0\0\0\x04\0\0\0\0\0\0\0\x60\x0d\x68\0";

// A chunk's body of five messages: on `a` at 5 the number 1, on `b` at 3 the number 2, on `a` at 3
// a content that is no number, on `b` at 3 the number 3, and on `a` at 7 the number -1.
const FIVE: &[u8] = b"\x02\0\0\0\0\0\0\0\x36\0\0\0\0\0\0\0\
    \x0a\x09\x0a\x01a\x10\x05\x1a\x02\x08\x02\x0a\x09\x0a\x01b\x10\x03\x1a\x02\x08\x04\
    \x0a\x08\x0a\x01a\x10\x03\x1a\x01\xff\x0a\x09\x0a\x01b\x10\x03\x1a\x02\x08\x06\
    \x0a\x09\x0a\x01a\x10\x07\x1a\x02\x08\x01";

// Channels by name.
type ChannelNames = &'static [&'static str];

// What a record is played by: the only channels and those that are dropped, the least and greatest
// time, and the numbers of the channels that components write, 0 for `b` and 1 for `a`.
type Choice = (Option<ChannelNames>, ChannelNames, u64, u64, &'static [u32]);

const MAX: u64 = u64::MAX;

// All that a record has.
const ALL: Choice = (None, &[], 0, MAX, &[]);

// Choices, and what is played of the five messages by each: their places in the record, and how
// many are shadowed.
const ROWS: [(Choice, &[u32], u32); 17] = [
    ((Some(&["a"]), &[], 0, MAX, &[]), &[2, 0, 4], 0),
    ((Some(&["c", "b"]), &[], 0, MAX, &[]), &[1, 3], 0),
    ((Some(&[]), &[], 0, MAX, &[]), &[], 0),
    ((None, &["a"], 0, MAX, &[]), &[1, 3], 0),
    ((Some(&["a"]), &["a"], 0, MAX, &[]), &[], 0),
    ((None, &[], 3, MAX, &[]), &[1, 2, 3, 0, 4], 0),
    ((None, &[], 4, MAX, &[]), &[0, 4], 0),
    ((None, &[], 0, 5, &[]), &[1, 2, 3, 0], 0),
    ((None, &[], 0, 4, &[]), &[1, 2, 3], 0),
    ((None, &[], 5, 5, &[]), &[0], 0),
    ((None, &[], 7, 3, &[]), &[], 0),
    ((None, &[], 0, MAX, &[1]), &[1, 3], 3),
    ((None, &[], 0, MAX, &[0, 1]), &[], 5),
    ((None, &[], 0, MAX, &[2]), &[1, 2, 3, 0, 4], 0),
    ((None, &[], 5, 6, &[1]), &[], 1),
    ((None, &["a"], 0, MAX, &[1]), &[1, 3], 0),
    ((Some(&["a"]), &[], 0, MAX, &[0]), &[2, 0, 4], 0),
];

// The record of a header and what follows it.
fn record_of(rt: &(impl Threads + Sync), alloc: Global, rest: &[u8]) -> Result<Record, Fail> {
    let mut bytes = HEADER.to_vec(alloc)?;
    bytes.resize(2_064, 0)?;
    bytes.extend_from_slice(rest)?;
    let mut store = MemStore::new(alloc);
    store.create("in.rec")?;
    store.put_at("in.rec", 0, bytes.as_slice())?;
    Ok(load(rt, alloc, &mut store, "in.rec")?)
}

// Adds the names of a record's channels.
fn add_channels(alloc: Global, recorded: &Record, names: &mut Names) -> Result<(), NamesError> {
    for number in 0..recorded.channels() {
        names.add(alloc, recorded.channel(number).name.as_str())?;
    }
    Ok(())
}

// These names as texts.
fn texts(alloc: Global, names: &[&str]) -> Result<Items<Text>, Fail> {
    let mut list = Vec::new(alloc);
    for name in names {
        list.push(Text::new(alloc, name)?)?;
    }
    Ok(Items::new(list))
}

// The filter of a choice.
fn filter_of(alloc: Global, choice: &Choice) -> Result<Filter, Fail> {
    let only = match choice.0 {
        None => None,
        Some(only) => Some(texts(alloc, only)?),
    };
    Ok(Filter {
        only,
        drop: texts(alloc, choice.1)?,
        begin: choice.2,
        end: choice.3,
    })
}

// What is played of what follows a header, with these forms of values. Of the two channels `b` has
// the number 0.
fn played_by(
    rt: &(impl Threads + Sync),
    alloc: Global,
    rest: &[u8],
    choice: &Choice,
    values: &[ChannelValue],
) -> Result<PlayList, Fail> {
    let record = record_of(rt, alloc, rest)?;
    let filter = filter_of(alloc, choice)?;
    let written = ChannelSet::new(choice.4.to_vec(alloc)?);
    let mut names = Names::new(alloc);
    names.add(alloc, "b")?;
    add_channels(alloc, &record, &mut names)?;
    Ok(play_list(alloc, &record, &names, &filter, &written, values)?)
}

// The same with no form.
fn played(
    rt: &(impl Threads + Sync),
    alloc: Global,
    rest: &[u8],
    choice: &Choice,
) -> Result<PlayList, Fail> {
    played_by(rt, alloc, rest, choice, &[])
}

// The form of the values on a channel whose field 1 is of a kind.
fn value(alloc: Global, channel: &str, kind: ScalarKind) -> Result<ChannelValue, Fail> {
    let mut path = Vec::new(alloc);
    path.push(1)?;
    Ok(ChannelValue {
        channel: Text::new(alloc, channel)?,
        form: ValueForm {
            path: Items::new(path),
            kind,
            scale: 1,
        },
    })
}

// A message that is played.
fn token(place: u32, channel: u32, seq: u32, time: u64, whole: Option<i64>) -> Token {
    Token {
        channel,
        seq,
        time,
        whole,
        origin: Some(place),
    }
}

#[test]
fn plays_by_time_and_then_in_file_order(rt: HostRuntime) -> Result<(), Fail> {
    let list = played(&rt, rt.alloc(), FIVE, &ALL)?;
    let want = [
        token(0, 0, 1, 3, Some(2)),
        token(1, 1, 1, 3, None),
        token(2, 0, 2, 3, Some(3)),
        token(3, 1, 2, 5, Some(1)),
        token(4, 1, 3, 7, Some(-1)),
    ];
    assert_eq!(rt; list.tokens.as_slice(), want.as_slice());
    assert_eq!(rt; list.places.as_slice(), [1, 2, 3, 0, 4].as_slice());
    assert_eq!(rt; list.shadowed, 0);
    Ok(())
}

#[test]
fn reads_values_by_the_first_form_of_a_channel(rt: HostRuntime) -> Result<(), Fail> {
    let alloc = rt.alloc();
    let mut values = Vec::new(alloc);
    for (channel, kind) in [
        ("c", ScalarKind::Double),
        ("a", ScalarKind::Uint64),
        ("a", ScalarKind::Double),
    ] {
        values.push(value(alloc, channel, kind)?)?;
    }
    let list = played_by(&rt, alloc, FIVE, &ALL, &values)?;
    let want = [
        token(0, 0, 1, 3, Some(2)),
        token(1, 1, 1, 3, None),
        token(2, 0, 2, 3, Some(3)),
        token(3, 1, 2, 5, Some(2)),
        token(4, 1, 3, 7, Some(1)),
    ];
    assert_eq!(rt; list.tokens.as_slice(), want.as_slice());
    Ok(())
}

#[test]
fn plays_what_the_filter_lets_through(rt: HostRuntime) -> Result<(), Fail> {
    for (choice, places, shadowed) in ROWS {
        let list = played(&rt, rt.alloc(), FIVE, &choice)?;
        assert_eq!(rt; list.places.as_slice(), places);
        assert_eq!(rt; list.shadowed, shadowed);
    }
    Ok(())
}

#[test]
fn plays_nothing_of_an_empty_record(rt: HostRuntime) -> Result<(), Fail> {
    let list = played(&rt, rt.alloc(), b"", &ALL)?;
    assert_eq!(rt; list.tokens.as_slice(), [].as_slice());
    assert_eq!(rt; list.places.as_slice(), [].as_slice());
    assert_eq!(rt; list.shadowed, 0);
    Ok(())
}
