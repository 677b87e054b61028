// Each call of the store fails in turn, and what stands then.
use super::ran::{Ran, SERIAL_PLAY, chain_store, play, play_with_threads};
use super::samples::{TRACE, open_record, out_record};
use crate::calls::{Call, makes_calls};
use cy_store::{MemSink, MemStore};
use cyber_cli::Status;
use std::alloc::Global;
use std::process::Abort;
use std::test::Fail;

/// The calls that make the files of the chain.
pub const CALLS_BEFORE: u64 = 8;

/// The calls of the program, in their order. The sections of a record are read through a window.
/// Where the window lacks bytes of a head or of a body, it is filled from there on, and what it had
/// of them is not read again. It takes 16 bytes first, then twice as many each time, and no more
/// than are left. An index is read by itself. Each piece of a record is written by one call.
///
/// In the record that is read the channel's section is at 2064 (its body at 2080), the chunk's
/// header at 2088 (2104), the chunk's body at 2112 (2128), the index at 2140 (2156), and the end at
/// 2206.
pub const CALLS: [(&str, Call); 23] = [
    // Text files are read in one piece.
    ("d.dag", Call::Size),
    ("d.dag", Call::Read(0, 298)),
    ("p.conf", Call::Size),
    ("p.conf", Call::Read(0, 10)),
    ("r.conf", Call::Size),
    ("r.conf", Call::Read(0, 10)),
    ("a.rec", Call::Size),
    // The header.
    ("a.rec", Call::Read(0, 2064)),
    // 16 bytes: the channel's head.
    ("a.rec", Call::Read(2064, 2080)),
    // 32 bytes from the channel's body on, to the end of the chunk's header.
    ("a.rec", Call::Read(2080, 2112)),
    // 64 bytes from the head of the chunk's body on.
    ("a.rec", Call::Read(2112, 2176)),
    // The index, of which twenty bytes are there.
    ("a.rec", Call::Read(2176, 2206)),
    ("out.rec", Call::Create),
    // The header of an open record, three channels, the header and the body of the chunk, the
    // index, and the header of a whole record.
    ("out.rec", Call::Put(0, 2064)),
    ("out.rec", Call::Put(2064, 2088)),
    ("out.rec", Call::Put(2088, 2112)),
    ("out.rec", Call::Put(2112, 2136)),
    ("out.rec", Call::Put(2136, 2160)),
    ("out.rec", Call::Put(2160, 2212)),
    ("out.rec", Call::Put(2212, 2318)),
    ("out.rec", Call::Put(0, 2064)),
    ("t.txt", Call::Create),
    ("t.txt", Call::Put(0, 190)),
];

/// How many of them read files.
pub const READS: usize = 12;

/// The number of the call that puts the first piece of the record, behind those that read and the
/// one that makes the file.
const FIRST_PUT: usize = READS + 1 + 1;

/// Where the pieces before each piece of the record end; the last one is put over the first.
const ENDS: [usize; 8] = [0, 2064, 2088, 2112, 2136, 2160, 2212, 2318];

// The chain's store, in which this call of the program fails after it kept so many bytes.
fn failing_at(alloc: Global, call: usize, keep: usize) -> Result<MemStore, Fail> {
    let mut store = chain_store(alloc)?;
    store.fail_at(CALLS_BEFORE + call as u64, keep)?;
    Ok(store)
}

// The line that tells of the failure of this call.
fn line_of(alloc: Global, call: usize) -> Result<String, Fail> {
    let (file, _) = CALLS[call - 1];
    Ok(format!(in alloc; "cyber: {file}: the store failed\n")?)
}

// The record where this piece kept so many bytes: those before it are whole, under the header of a
// record that is being written.
fn record_at(alloc: Global, piece: usize, keep: usize) -> Result<Vec<u8>, Fail> {
    let mut bytes = open_record(alloc)?;
    if piece + 1 == ENDS.len() {
        let whole = out_record(alloc)?;
        for (byte, new) in bytes.iter_mut().zip(whole.iter()).take(keep) {
            *byte = *new;
        }
    } else {
        bytes.truncate(ENDS[piece] + keep);
    }
    Ok(bytes)
}

// The record that stands where this call failed and kept so many bytes.
fn record_after(alloc: Global, call: usize, keep: usize) -> Result<Option<Vec<u8>>, Fail> {
    if call < FIRST_PUT {
        return Ok(None);
    }
    if call - FIRST_PUT < ENDS.len() {
        return Ok(Some(record_at(alloc, call - FIRST_PUT, keep)?));
    }
    Ok(Some(out_record(alloc)?))
}

// What stands after a call that failed and kept so many bytes.
fn stands(rt: &impl Abort, alloc: Global, ran: &Ran, call: usize, keep: usize) -> Result<(), Fail> {
    assert_eq!(rt; ran.status, Status::StoreFault, "{call}");
    assert_eq!(rt; ran.err.bytes(), line_of(alloc, call)?.as_bytes(), "{call}");
    assert_eq!(rt; ran.out.bytes(), b"".as_slice(), "{call}");
    let record = record_after(alloc, call, keep)?;
    let want = record.as_ref().map(|bytes| bytes.as_slice());
    assert!(rt; ran.store.file("out.rec") == want, "{call} {keep}");
    let want = if call < CALLS.len() {
        None
    } else {
        Some(&TRACE[..keep.min(TRACE.len())])
    };
    assert_eq!(rt; ran.store.file("t.txt"), want, "{call} {keep}");
    Ok(())
}

#[test]
fn makes_these_calls(rt: HostRuntime) -> Result<(), Fail> {
    let alloc = rt.alloc();
    let mut words = Vec::new(alloc);
    for word in SERIAL_PLAY.split(' ') {
        words.push(word)?;
    }
    makes_calls(&rt, alloc, &words, chain_store(alloc)?, &CALLS)
}

#[test]
fn fails_each_call_in_turn(rt: HostRuntime) -> Result<(), Fail> {
    let alloc = rt.alloc();
    for call in 1..=CALLS.len() {
        for keep in [0, 9] {
            let store = failing_at(alloc, call, keep)?;
            let ran = play(&rt, alloc, store, MemSink::new(alloc))?;
            stands(&rt, alloc, &ran, call, keep)?;
        }
    }
    let store = failing_at(alloc, CALLS.len() + 1, 0)?;
    let done = play(&rt, alloc, store, MemSink::new(alloc))?;
    assert_eq!(rt; done.status, Status::Done);
    Ok(())
}

// All reading is done before threads start, and all writing after they ended, so that the same
// stands as after a serial play.
#[test]
fn fails_each_call_in_turn_with_threads(rt: HostRuntime) -> Result<(), Fail> {
    let alloc = rt.alloc();
    for call in 1..=CALLS.len() {
        for keep in [0, 9] {
            let store = failing_at(alloc, call, keep)?;
            let ran = play_with_threads(&rt, alloc, store, false)?;
            stands(&rt, alloc, &ran, call, keep)?;
        }
    }
    let store = failing_at(alloc, CALLS.len() + 1, 0)?;
    let done = play_with_threads(&rt, alloc, store, false)?;
    assert_eq!(rt; done.status, Status::Done);
    Ok(())
}
