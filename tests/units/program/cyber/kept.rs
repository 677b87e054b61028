// The commands `recover` and `split`: the records that they write, what they refuse, and each call
// of the store that fails.
use super::ran::{Ran, ends, holds, lacks, run, store_of};
use super::samples::{empty_record, in_record, open_record, out_record, two_out_record, two_record};
use crate::calls::{Call, makes_calls};
use cy_store::MemStore;
use cyber_cli::Status;
use std::alloc::Global;
use std::process::Abort;
use std::test::Fail;
use std::thread::Threads;

const RECOVER: [&str; 3] = ["recover", "in.rec", "out.rec"];

const SPLIT: [&str; 4] = ["split", "in.rec", "out.rec", "--channels=/in"];

/// The calls that make the file which is read.
const CALLS_BEFORE: u64 = 2;

/// The calls of both commands over a record of one message, in their order: `faults.rs` says why
/// the record is read so. Written are the header of an open record, the channel, the header and the
/// body of the chunk, the index, and the header of a whole record.
const CALLS: [(&str, Call); 13] = [
    ("in.rec", Call::Size),
    ("in.rec", Call::Read(0, 2064)),
    ("in.rec", Call::Read(2064, 2080)),
    ("in.rec", Call::Read(2080, 2112)),
    ("in.rec", Call::Read(2112, 2169)),
    ("in.rec", Call::Read(2169, 2209)),
    ("out.rec", Call::Create),
    ("out.rec", Call::Put(0, 2064)),
    ("out.rec", Call::Put(2064, 2089)),
    ("out.rec", Call::Put(2089, 2113)),
    ("out.rec", Call::Put(2113, 2142)),
    ("out.rec", Call::Put(2142, 2209)),
    ("out.rec", Call::Put(0, 2064)),
];

/// Where the sections of the record with both channels end: the header, the two channels, the
/// header and the body of the chunk, and the index.
const ENDS: [usize; 6] = [2064, 2089, 2115, 2139, 2182, 2271];

// A command that reads these bytes is done, with this line, and writes this record.
fn makes(
    rt: &(impl Abort + Threads + Sync),
    alloc: Global,
    words: &[&str],
    bytes: &[u8],
    line: &[u8],
    record: &[u8],
) -> Result<(), Fail> {
    let ran = run(rt, alloc, words, store_of(alloc, bytes)?)?;
    ends(rt, &ran, Status::Done, line, b"");
    holds(rt, &ran, "in.rec", bytes);
    holds(rt, &ran, "out.rec", record);
    Ok(())
}

#[test]
fn recovers_whole_records(rt: HostRuntime) -> Result<(), Fail> {
    let alloc = rt.alloc();
    for (record, line) in [
        (empty_record(alloc)?, b"done: messages 0, dropped 0\n"),
        (in_record(alloc)?, b"done: messages 1, dropped 0\n"),
        (two_record(alloc)?, b"done: messages 2, dropped 0\n"),
        (two_out_record(alloc)?, b"done: messages 4, dropped 0\n"),
    ] {
        makes(&rt, alloc, &RECOVER, &record, line, &record)?;
    }
    Ok(())
}

#[test]
fn recovers_what_stands_before_a_cut(rt: HostRuntime) -> Result<(), Fail> {
    let alloc = rt.alloc();
    let empty = empty_record(alloc)?;
    let whole = out_record(alloc)?;
    for (cut, line, record) in [
        (ENDS[0], b"done: messages 0, dropped 0\n".as_slice(), &empty),
        (ENDS[0] + 9, b"done: messages 0, dropped 9\n", &empty),
        (ENDS[2], b"done: messages 0, dropped 0\n", &empty),
        (ENDS[3] + 17, b"done: messages 0, dropped 17\n", &empty),
        (ENDS[4] - 1, b"done: messages 0, dropped 42\n", &empty),
        (ENDS[4], b"done: messages 2, dropped 0\n", &whole),
        (ENDS[4] + 15, b"done: messages 2, dropped 15\n", &whole),
        (ENDS[4] + 16, b"done: messages 2, dropped 0\n", &whole),
    ] {
        let mut bytes = out_record(alloc)?;
        bytes.truncate(cut);
        makes(&rt, alloc, &RECOVER, &bytes, line, record)?;
    }
    Ok(())
}

#[test]
fn recovers_behind_a_header_of_an_open_record(rt: HostRuntime) -> Result<(), Fail> {
    let alloc = rt.alloc();
    let line = b"done: messages 2, dropped 0\n";
    makes(&rt, alloc, &RECOVER, &open_record(alloc)?, line, &out_record(alloc)?)
}

#[test]
fn splits_by_channels_and_times(rt: HostRuntime) -> Result<(), Fail> {
    let alloc = rt.alloc();
    let empty = empty_record(alloc)?;
    let only_in = two_record(alloc)?;
    let whole = two_out_record(alloc)?;
    for (option, line, record) in [
        ("--channels=/in", b"done: messages 2 of 4\n", &only_in),
        ("--drop=/out", b"done: messages 2 of 4\n", &only_in),
        ("--channels=/in,/out", b"done: messages 4 of 4\n", &whole),
        ("--begin=100", b"done: messages 4 of 4\n", &whole),
        ("--begin=101", b"done: messages 0 of 4\n", &empty),
        ("--end=99", b"done: messages 0 of 4\n", &empty),
        ("--channels=/none", b"done: messages 0 of 4\n", &empty),
    ] {
        let words = ["split", "in.rec", "out.rec", option];
        makes(&rt, alloc, &words, &two_out_record(alloc)?, line, record)?;
    }
    Ok(())
}

#[test]
fn refuses_files_that_are_no_records(rt: HostRuntime) -> Result<(), Fail> {
    let alloc = rt.alloc();
    let mut compressed = in_record(alloc)?;
    compressed[21] = 2;
    let mut short = in_record(alloc)?;
    short.truncate(2063);
    for words in [RECOVER.as_slice(), &SPLIT] {
        for (bytes, line) in [
            (b"a text".as_slice(), b"cyber: in.rec: not a record\n".as_slice()),
            (&compressed, b"cyber: in.rec: compressed chunks of kind 2\n"),
            (&short, b"cyber: in.rec: at 0: Cut\n"),
        ] {
            let ran = run(&rt, alloc, words, store_of(alloc, bytes)?)?;
            ends(&rt, &ran, Status::Refused, b"", line);
            lacks(&rt, &ran, "out.rec");
        }
    }
    Ok(())
}

#[test]
fn refuses_to_split_a_record_that_was_cut(rt: HostRuntime) -> Result<(), Fail> {
    let mut bytes = out_record(rt.alloc())?;
    bytes.truncate(ENDS[4] - 1);
    let ran = run(&rt, rt.alloc(), &SPLIT, store_of(rt.alloc(), &bytes)?)?;
    ends(&rt, &ran, Status::Refused, b"", b"cyber: in.rec: at 2139: Cut\n");
    lacks(&rt, &ran, "out.rec");
    Ok(())
}

#[test]
fn refuses_names_too_long_as_a_limit(rt: HostRuntime) -> Result<(), Fail> {
    let alloc = rt.alloc();
    let mut bytes = in_record(alloc)?;
    bytes.truncate(ENDS[0]);
    bytes.extend_from_slice(b"\x04\0\0\0\0\0\0\0\x04\x10\0\0\0\0\0\0\x0a\x81\x20")?;
    bytes.resize(ENDS[0] + 16 + 4_100, b'n')?;
    for words in [RECOVER.as_slice(), &SPLIT] {
        let ran = run(&rt, alloc, words, store_of(alloc, &bytes)?)?;
        let line = b"cyber: in.rec: limit NameTooLong passed: 4097\n";
        ends(&rt, &ran, Status::Limit, b"", line);
        lacks(&rt, &ran, "out.rec");
    }
    Ok(())
}

#[test]
fn names_a_file_that_is_not_there(rt: HostRuntime) -> Result<(), Fail> {
    for words in [RECOVER.as_slice(), &SPLIT] {
        let ran = run(&rt, rt.alloc(), words, MemStore::new(rt.alloc()))?;
        let line = b"cyber: in.rec: the store failed\n";
        ends(&rt, &ran, Status::StoreFault, b"", line);
        lacks(&rt, &ran, "out.rec");
    }
    Ok(())
}

// The run in which this call fails.
fn failing_at(
    rt: &(impl Threads + Sync),
    alloc: Global,
    words: &[&str],
    call: usize,
) -> Result<Ran<MemStore>, Fail> {
    let mut store = store_of(alloc, &in_record(alloc)?)?;
    store.fail_at(CALLS_BEFORE + call as u64, 0)?;
    run(rt, alloc, words, store)
}

#[test]
fn makes_these_calls(rt: HostRuntime) -> Result<(), Fail> {
    let alloc = rt.alloc();
    for words in [RECOVER.as_slice(), &SPLIT] {
        makes_calls(&rt, alloc, words, store_of(alloc, &in_record(alloc)?)?, &CALLS)?;
    }
    Ok(())
}

#[test]
fn fails_each_call_in_turn(rt: HostRuntime) -> Result<(), Fail> {
    let alloc = rt.alloc();
    for words in [RECOVER.as_slice(), &SPLIT] {
        for call in 1..=CALLS.len() {
            let ran = failing_at(&rt, alloc, words, call)?;
            let (file, _) = CALLS[call - 1];
            let line = format!(in alloc; "cyber: {file}: the store failed\n")?;
            ends(&rt, &ran, Status::StoreFault, b"", line.as_bytes());
            holds(&rt, &ran, "in.rec", &in_record(alloc)?);
        }
        let ran = failing_at(&rt, alloc, words, CALLS.len() + 1)?;
        assert_eq!(rt; ran.status, Status::Done);
    }
    Ok(())
}

#[test]
fn refuses_other_words_of_both(rt: HostRuntime) -> Result<(), Fail> {
    for words in [
        ["recover", "in.rec"].as_slice(),
        &["recover", "in.rec", "in.rec"],
        &["recover", "in.rec", "out.rec", "--channels=/in"],
        &["split", "in.rec", "in.rec"],
        &["split", "--channels=/in", "in.rec", "out.rec"],
        &["split", "in.rec", "out.rec", "--channels="],
    ] {
        let ran = run(&rt, rt.alloc(), words, store_of(rt.alloc(), b"")?)?;
        assert_eq!(rt; ran.status, Status::Usage);
        lacks(&rt, &ran, "out.rec");
    }
    Ok(())
}
