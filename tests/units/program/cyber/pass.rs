// Records that are passed on, and the bytes that other writers give for them.
use super::ran::{PASS, ends, holds, run, run_over, store_of};
use super::samples::{
    AGAIN_TRACE, EMPTY_TRACE, TRACE, TWO_TRACE, empty_record, in_record, out_record,
    two_out_record, two_record,
};
use cy_store::MemSink;
use cyber_cli::Status;
use std::alloc::Global;
use std::process::Abort;
use std::test::Fail;
use std::thread::Threads;

// A record is passed on: this record and this trace are written, and this line is told.
fn passes(
    rt: &(impl Abort + Threads + Sync),
    alloc: Global,
    given: &[u8],
    record: &[u8],
    trace: &str,
    line: &[u8],
) -> Result<(), Fail> {
    let ran = run(rt, alloc, &PASS, store_of(alloc, given)?)?;
    ends(rt, &ran, Status::Done, line, b"");
    holds(rt, &ran, "out.rec", record);
    holds(rt, &ran, "t.txt", trace.as_bytes());
    Ok(())
}

#[test]
fn passes_a_message(rt: HostRuntime) -> Result<(), Fail> {
    let alloc = rt.alloc();
    let line = b"done: played 1, shadowed 0, calls 1, written 2\n";
    passes(
        &rt,
        alloc,
        &in_record(alloc)?,
        &out_record(alloc)?,
        TRACE,
        line,
    )
}

#[test]
fn passes_two_messages(rt: HostRuntime) -> Result<(), Fail> {
    let alloc = rt.alloc();
    let line = b"done: played 2, shadowed 0, calls 2, written 4\n";
    passes(
        &rt,
        alloc,
        &two_record(alloc)?,
        &two_out_record(alloc)?,
        TWO_TRACE,
        line,
    )
}

#[test]
fn passes_a_header_alone(rt: HostRuntime) -> Result<(), Fail> {
    let alloc = rt.alloc();
    let mut given = in_record(alloc)?;
    given.truncate(2_064);
    let line = b"done: played 0, shadowed 0, calls 0, written 0\n";
    passes(&rt, alloc, &given, &empty_record(alloc)?, EMPTY_TRACE, line)
}

// What the first run passed on is not played by the second one, which writes the same messages.
#[test]
fn passes_a_written_record_again(rt: HostRuntime) -> Result<(), Fail> {
    let alloc = rt.alloc();
    let first = run(&rt, alloc, &PASS, store_of(alloc, &in_record(alloc)?)?)?;
    let words = ["pass", "out.rec", "again.rec", "again.txt", "/in", "/out"];
    let ran = run(&rt, alloc, &words, first.store)?;
    let line = b"done: played 1, shadowed 1, calls 1, written 2\n";
    ends(&rt, &ran, Status::Done, line, b"");
    holds(&rt, &ran, "again.rec", &out_record(alloc)?);
    holds(&rt, &ran, "again.txt", AGAIN_TRACE.as_bytes());
    Ok(())
}

// The line of Done can't be told, and whether that can.
#[test]
fn leaves_both_files_where_the_line_fails(rt: HostRuntime) -> Result<(), Fail> {
    let alloc = rt.alloc();
    for (err_fails, want) in [
        (false, b"cyber: the output failed\n".as_slice()),
        (true, b"".as_slice()),
    ] {
        let mut out = MemSink::new(alloc);
        out.fail_at(1)?;
        let mut err = MemSink::new(alloc);
        if err_fails {
            err.fail_at(1)?;
        }
        let store = store_of(alloc, &in_record(alloc)?)?;
        let ran = run_over(&rt, alloc, &PASS, store, out, err)?;
        ends(&rt, &ran, Status::SinkFault, b"", want);
        holds(&rt, &ran, "out.rec", &out_record(alloc)?);
        holds(&rt, &ran, "t.txt", TRACE.as_bytes());
    }
    Ok(())
}
