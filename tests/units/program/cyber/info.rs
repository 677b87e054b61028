// The command `info`: what it prints of a record that was written, and each refusal.
use super::ran::{PASS, ends, run, store_of};
use super::samples::in_record;
use cy_store::MemStore;
use cyber_cli::Status;
use std::alloc::Global;
use std::process::Abort;
use std::test::Fail;
use std::thread::Threads;

const INFO: [&str; 2] = ["info", "in.rec"];

const TEXT: &[u8] = b"file out.rec bytes 2271\nversion 1.0 complete yes compress 0\n\
    channels 2 chunks 1 messages 2\ntime 100 to 100\nindex present entries 4\n\
    channel \"/in\" messages 1 type \"\"\nchannel \"/out\" messages 1 type \"\"\n";

// A valid header and what follows it.
fn behind_header(alloc: Global, rest: &[u8]) -> Result<Vec<u8>, Fail> {
    let mut bytes = in_record(alloc)?;
    bytes.truncate(2_064);
    bytes.extend_from_slice(rest)?;
    Ok(bytes)
}

// A file is refused as a record, with this status and this line.
fn refuses(
    rt: &(impl Abort + Threads + Sync),
    alloc: Global,
    bytes: &[u8],
    status: Status,
    line: &[u8],
) -> Result<(), Fail> {
    let ran = run(rt, alloc, &INFO, store_of(alloc, bytes)?)?;
    ends(rt, &ran, status, b"", line);
    Ok(())
}

#[test]
fn tells_what_a_written_record_is(rt: HostRuntime) -> Result<(), Fail> {
    let bytes = in_record(rt.alloc())?;
    let played = run(&rt, rt.alloc(), &PASS, store_of(rt.alloc(), &bytes)?)?;
    let told = run(&rt, rt.alloc(), &["info", "out.rec"], played.store)?;
    ends(&rt, &told, Status::Done, TEXT, b"");
    Ok(())
}

#[test]
fn refuses_each_fault_behind_the_header(rt: HostRuntime) -> Result<(), Fail> {
    for (rest, status, line) in [
        (
            b"\x04".as_slice(),
            Status::Refused,
            b"cyber: in.rec: at 2064: Cut\n".as_slice(),
        ),
        (
            b"\x09\0\0\0\0\0\0\0\0\0\0\0\0\0\0\0",
            Status::Refused,
            b"cyber: in.rec: at 2064: Kind 9\n",
        ),
        (
            b"\x04\0\0\0\0\0\0\0\xff\xff\xff\xff\xff\xff\xff\xff",
            Status::Refused,
            b"cyber: in.rec: at 2064: Size -1\n",
        ),
        (
            b"\x02\0\0\0\0\0\0\0\x01\0\0\x20\0\0\0\0",
            Status::Limit,
            b"cyber: in.rec: at 2064: TooLong 536870913\n",
        ),
        (
            b"\x04\0\0\0\0\0\0\0\x02\0\0\0\0\0\0\0\x0a\x07",
            Status::Refused,
            b"cyber: in.rec: at 2082: Wire\n",
        ),
        (
            b"\x04\0\0\0\0\0\0\0\x03\0\0\0\0\0\0\0\x0a\x01\xff",
            Status::Refused,
            b"cyber: in.rec: at 2082: NameNotText\n",
        ),
    ] {
        let bytes = behind_header(rt.alloc(), rest)?;
        refuses(&rt, rt.alloc(), &bytes, status, line)?;
    }
    Ok(())
}

#[test]
fn refuses_headers_and_limits(rt: HostRuntime) -> Result<(), Fail> {
    let alloc = rt.alloc();
    let mut compressed = in_record(alloc)?;
    if compressed.len() > 21 {
        compressed[21] = 2;
    }
    let line = b"cyber: in.rec: compressed chunks of kind 2\n";
    refuses(&rt, alloc, &compressed, Status::Refused, line)?;
    let mut long = behind_header(alloc, b"\x04\0\0\0\0\0\0\0\x04\x10\0\0\0\0\0\0\x0a\x81\x20")?;
    long.resize(2_064 + 16 + 4_100, b'n')?;
    let line = b"cyber: in.rec: limit NameTooLong passed: 4097\n";
    refuses(&rt, alloc, &long, Status::Limit, line)?;
    let line = b"cyber: in.rec: not a record\n";
    refuses(&rt, alloc, b"a text", Status::Refused, line)
}

#[test]
fn names_a_record_that_cannot_be_read(rt: HostRuntime) -> Result<(), Fail> {
    let line = b"cyber: in.rec: the store failed\n";
    let missing = run(&rt, rt.alloc(), &INFO, MemStore::new(rt.alloc()))?;
    ends(&rt, &missing, Status::StoreFault, b"", line);
    let bytes = in_record(rt.alloc())?;
    let mut store = store_of(rt.alloc(), &bytes)?;
    store.fail_at(3, 0)?;
    let failed = run(&rt, rt.alloc(), &INFO, store)?;
    ends(&rt, &failed, Status::StoreFault, b"", line);
    Ok(())
}

#[test]
fn refuses_words_behind_info(rt: HostRuntime) -> Result<(), Fail> {
    for words in [
        ["info"].as_slice(),
        &["info", "a", "b"],
        &["info", "--x"],
        &["info", ""],
    ] {
        let ran = run(&rt, rt.alloc(), words, MemStore::new(rt.alloc()))?;
        assert_eq!(rt; ran.status, Status::Usage);
    }
    Ok(())
}
