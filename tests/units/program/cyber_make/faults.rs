// Each call of the store fails in turn, and what stands then.
use super::ran::run;
use cy_store::{MemSink, MemStore};
use cyber_cli::Status;
use std::alloc::Global;
use std::process::Abort;
use std::test::Fail;
use std::thread::Threads;

/// The files that `make 4 m` writes, in their order, each with the number of its calls: one that
/// makes it, and one for each of its pieces. Of a record these are the header twice, a section for
/// each channel, the header and the body of the one chunk, and the index.
const FILES: [(&str, u64); 8] = [
    ("m.adder.conf", 2),
    ("m.band.conf", 2),
    ("m.last8.conf", 2),
    ("m.late.conf", 2),
    ("m.dag", 2),
    ("m.record", 8),
    ("m.out", 12),
    ("m.trace", 2),
];

/// How many calls there are.
const CALLS: u64 = 32;

// The place of the file of a call among all files, and the calls before it.
fn file_of(call: u64) -> (usize, u64) {
    let mut before = 0u64;
    for (place, (_, calls)) in FILES.iter().enumerate() {
        let end = before + *calls;
        if call <= end {
            return (place, before);
        }
        before = end;
    }
    (FILES.len(), before)
}

// What stands after this call failed: the files before are there, and those behind it aren't.
fn stands(rt: &(impl Abort + Threads + Sync), alloc: Global, call: u64) -> Result<(), Fail> {
    let mut store = MemStore::new(alloc);
    store.fail_at(call, 0)?;
    let ran = run(rt, alloc, &["make", "4", "m"], store, MemSink::new(alloc))?;
    assert_eq!(rt; ran.status, Status::StoreFault, "{call}");
    assert_eq!(rt; ran.out.bytes(), b"".as_slice(), "{call}");
    let (failed, before) = file_of(call);
    for (place, (name, _)) in FILES.iter().enumerate() {
        let is_there = place < failed || (place == failed && call > before + 1);
        assert_eq!(rt; ran.store.file(name).is_some(), is_there, "{call} {name}");
        if place == failed {
            let mut line = String::from_str(alloc, "cyber: ")?;
            line.push_str(name)?;
            line.push_str(": the store failed\n")?;
            assert_eq!(rt; ran.err.bytes(), line.as_bytes(), "{call}");
        }
    }
    Ok(())
}

#[test]
fn fails_each_call_in_turn(rt: HostRuntime) -> Result<(), Fail> {
    let alloc = rt.alloc();
    for call in 1..=CALLS {
        stands(&rt, alloc, call)?;
    }
    let mut store = MemStore::new(alloc);
    store.fail_at(CALLS + 1, 0)?;
    let ran = run(&rt, alloc, &["make", "4", "m"], store, MemSink::new(alloc))?;
    assert_eq!(rt; ran.status, Status::Done);
    Ok(())
}
