// Each call of the store fails in turn, and what stands then.
use super::ran::{PASS, Ran, ends, holds, lacks, run, store_of};
use super::samples::{TRACE, empty_record, in_record, open_record, out_record};
use crate::calls::{Call, makes_calls};
use cy_reader::{LoadError, load};
use cy_section::SectionError;
use cy_store::MemStore;
use cyber_cli::Status;
use std::alloc::Global;
use std::process::Abort;
use std::test::Fail;
use std::thread::Threads;

/// The calls that make the record which is played.
pub const CALLS_BEFORE: u64 = 2;

/// The calls of the program, in their order. The sections of a record are read through a window.
/// Where the window lacks bytes of a head or of a body, it is filled from there on, and what it had
/// of them is not read again. It takes 16 bytes first, then twice as many each time, and no more
/// than are left. An index is read by itself. Each piece of a record is written by one call.
///
/// In the record that is read the channel's section is at 2064 (its body at 2080), the chunk's
/// header at 2089 (2105), the chunk's body at 2113 (2129), the index at 2142 (2158), and the end at
/// 2209.
const CALLS: [(&str, Call); 16] = [
    ("in.rec", Call::Size),
    // The header.
    ("in.rec", Call::Read(0, 2064)),
    // 16 bytes: the channel's head.
    ("in.rec", Call::Read(2064, 2080)),
    // 32 bytes from the channel's body on.
    ("in.rec", Call::Read(2080, 2112)),
    // 64 bytes from the body of the chunk's header on, of which seven are there.
    ("in.rec", Call::Read(2112, 2169)),
    // The index, of which eleven bytes are there.
    ("in.rec", Call::Read(2169, 2209)),
    ("out.rec", Call::Create),
    // The header of an open record, two channels, the header and the body of the chunk, the index,
    // and the header of a whole record.
    ("out.rec", Call::Put(0, 2064)),
    ("out.rec", Call::Put(2064, 2089)),
    ("out.rec", Call::Put(2089, 2115)),
    ("out.rec", Call::Put(2115, 2139)),
    ("out.rec", Call::Put(2139, 2182)),
    ("out.rec", Call::Put(2182, 2271)),
    ("out.rec", Call::Put(0, 2064)),
    ("t.txt", Call::Create),
    ("t.txt", Call::Put(0, 126)),
];

/// The number of the call that puts the first piece of the record, behind six that read and one
/// that makes the file.
pub const FIRST_PUT: usize = 6 + 1 + 1;

/// Where the pieces before each piece of the record end; the last one is put over the first.
const ENDS: [usize; 7] = [0, 2064, 2089, 2115, 2139, 2182, 2271];

// The run where this call of the program fails after it kept so many bytes.
fn failing_at(
    rt: &(impl Threads + Sync),
    alloc: Global,
    call: usize,
    keep: usize,
) -> Result<Ran<MemStore>, Fail> {
    let mut store = store_of(alloc, &in_record(alloc)?)?;
    store.fail_at(CALLS_BEFORE + call as u64, keep)?;
    run(rt, alloc, &PASS, store)
}

// The record where this piece kept so many bytes: those before it are whole, under the header of a
// record that is being written.
fn record_at(alloc: Global, piece: usize, keep: usize) -> Result<Vec<u8>, Fail> {
    let mut bytes = open_record(alloc)?;
    if piece + 1 == ENDS.len() {
        let whole = out_record(alloc)?;
        for (byte, new) in bytes.iter_mut().zip(whole.iter()).take(keep) {
            *byte = *new;
        }
    } else {
        bytes.truncate(ENDS[piece] + keep);
    }
    Ok(bytes)
}

// What is told where this call fails.
fn line_at(alloc: Global, call: usize) -> Result<String, Fail> {
    let (file, _) = CALLS[call - 1];
    Ok(format!(in alloc; "cyber: {file}: the store failed\n")?)
}

// The record that stands where this call failed and kept so many bytes.
fn record_after(alloc: Global, call: usize, keep: usize) -> Result<Option<Vec<u8>>, Fail> {
    if call < FIRST_PUT {
        return Ok(None);
    }
    if call - FIRST_PUT < ENDS.len() {
        return Ok(Some(record_at(alloc, call - FIRST_PUT, keep)?));
    }
    Ok(Some(out_record(alloc)?))
}

// The trace that stands then.
fn trace_after(call: usize, keep: usize) -> Option<&'static [u8]> {
    let trace = TRACE.as_bytes();
    if call < CALLS.len() {
        None
    } else {
        Some(&trace[..keep.min(trace.len())])
    }
}

// What stands after a call that failed and kept so many bytes.
fn stands(
    rt: &(impl Abort + Threads + Sync),
    alloc: Global,
    call: usize,
    keep: usize,
) -> Result<(), Fail> {
    let ran = failing_at(rt, alloc, call, keep)?;
    let line = line_at(alloc, call)?;
    ends(rt, &ran, Status::StoreFault, b"", line.as_bytes());
    let record = record_after(alloc, call, keep)?;
    let want = record.as_ref().map(|bytes| bytes.as_slice());
    assert!(rt; ran.store.file("out.rec") == want, "{call} {keep}");
    assert!(rt;
        ran.store.file("t.txt") == trace_after(call, keep),
        "{call} {keep}"
    );
    Ok(())
}

#[test]
fn makes_these_calls(rt: HostRuntime) -> Result<(), Fail> {
    let alloc = rt.alloc();
    makes_calls(&rt, alloc, &PASS, store_of(alloc, &in_record(alloc)?)?, &CALLS)
}

#[test]
fn fails_each_call_in_turn(rt: HostRuntime) -> Result<(), Fail> {
    let alloc = rt.alloc();
    for call in 1..=CALLS.len() {
        stands(&rt, alloc, call, 0)?;
        stands(&rt, alloc, call, 9)?;
    }
    let done = failing_at(&rt, alloc, CALLS.len() + 1, 0)?;
    assert_eq!(rt; done.status, Status::Done);
    Ok(())
}

// What a piece may have kept: nothing, a byte, half of it, and all.
fn kept_of(piece: usize) -> [usize; 4] {
    let size = match piece {
        6 => ENDS[1],
        _ => ENDS[piece + 1] - ENDS[piece],
    };
    [0, 1, size / 2, size]
}

// How many channels and messages a record has of which so many pieces are whole.
const READ: [(u32, u32); 7] = [(0, 0), (0, 0), (1, 0), (2, 0), (2, 0), (2, 2), (2, 2)];

// What is read of the record of which this piece kept so many bytes: how many channels and messages
// it has, or its fault. The index is not read, but its head is.
fn read_of(piece: usize, keep: usize) -> Result<(u32, u32), LoadError> {
    let at = ENDS[piece] as u64;
    match (piece, keep) {
        (0, 0..=15) => Err(LoadError::NotRecord),
        (0, 16..=2063) => Err(LoadError::Section(SectionError::Cut { at: 0 })),
        (0, _) => Ok(READ[1]),
        (6, _) | (1..=5, 0) | (5, 16..) => Ok(READ[piece]),
        (1..=4, _) if keep == ENDS[piece + 1] - ENDS[piece] => Ok(READ[piece + 1]),
        _ => Err(LoadError::Section(SectionError::Cut { at })),
    }
}

#[test]
fn reads_what_a_piece_left_that_failed(rt: HostRuntime) -> Result<(), Fail> {
    let alloc = rt.alloc();
    for piece in 0..ENDS.len() {
        for keep in kept_of(piece) {
            let mut store = failing_at(&rt, alloc, FIRST_PUT + piece, keep)?.store;
            let read = load(&rt, alloc, &mut store, "out.rec")
                .map(|record| (record.channels(), record.messages()));
            assert_eq!(rt; read, read_of(piece, keep), "{piece} {keep}");
        }
    }
    Ok(())
}

// The fourth piece is the header of the chunk, 24 bytes behind 2,115. Its write fails, though all of
// it is kept: both channels are read, and no message.
#[test]
fn keeps_the_chunk_header_whose_write_failed(rt: HostRuntime) -> Result<(), Fail> {
    let alloc = rt.alloc();
    let mut ran = failing_at(&rt, alloc, FIRST_PUT + 3, 24)?;
    let line = b"cyber: out.rec: the store failed\n";
    ends(&rt, &ran, Status::StoreFault, b"", line);
    lacks(&rt, &ran, "t.txt");
    let size = ran.store.file("out.rec").map(|file| file.len());
    assert_eq!(rt; size, Some(2_139));
    let record = load(&rt, alloc, &mut ran.store, "out.rec")?;
    assert_eq!(rt; (record.channels(), record.messages()), (2, 0));
    Ok(())
}

// What is recovered of the record of which this piece kept so many bytes: how many messages, and
// how many bytes are dropped; or what is told where it has no header.
fn recovered_of(piece: usize, keep: usize) -> Result<(usize, usize), &'static [u8]> {
    match (piece, keep) {
        (0, 0..=15) => Err(b"cyber: out.rec: not a record\n"),
        (0, 16..=2063) => Err(b"cyber: out.rec: at 0: Cut\n"),
        (0, _) => Ok((0, 0)),
        (1..=3, _) if keep == ENDS[piece + 1] - ENDS[piece] => Ok((0, 0)),
        (4, 43) | (5, 16..) | (6, _) => Ok((2, 0)),
        (5, _) => Ok((2, keep)),
        _ => Ok((0, keep)),
    }
}

#[test]
fn recovers_what_a_piece_left_that_failed(rt: HostRuntime) -> Result<(), Fail> {
    let alloc = rt.alloc();
    for piece in 0..ENDS.len() {
        for keep in kept_of(piece) {
            let store = failing_at(&rt, alloc, FIRST_PUT + piece, keep)?.store;
            let ran = run(&rt, alloc, &["recover", "out.rec", "whole.rec"], store)?;
            match recovered_of(piece, keep) {
                Ok((messages, dropped)) => {
                    let line = format!(in alloc; "done: messages {messages}, dropped {dropped}\n")?;
                    ends(&rt, &ran, Status::Done, line.as_bytes(), b"");
                    let whole = if messages == 0 {
                        empty_record(alloc)?
                    } else {
                        out_record(alloc)?
                    };
                    holds(&rt, &ran, "whole.rec", &whole);
                }
                Err(line) => {
                    ends(&rt, &ran, Status::Refused, b"", line);
                    lacks(&rt, &ran, "whole.rec");
                }
            }
        }
    }
    Ok(())
}
