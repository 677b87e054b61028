// The chain is played, and the bytes that another runtime writes for it.
use super::ran::{Ran, chain_store, play, play_still, play_with_threads};
use super::samples::{LINE, TRACE, out_record};
use cy_store::MemSink;
use cyber_cli::Status;
use std::alloc::Global;
use std::process::Abort;
use std::test::Fail;

// The chain was played: its files and its line are those of another runtime.
fn is_whole(rt: &impl Abort, alloc: Global, ran: &Ran) -> Result<(), Fail> {
    assert_eq!(rt; ran.status, Status::Done);
    assert_eq!(rt; ran.out.bytes(), LINE);
    assert_eq!(rt; ran.err.bytes(), b"".as_slice());
    assert_eq!(rt;
        ran.store.file("out.rec"),
        Some(out_record(alloc)?.as_slice())
    );
    assert_eq!(rt; ran.store.file("t.txt"), Some(TRACE));
    Ok(())
}

#[test]
fn plays_a_chain_of_two(rt: HostRuntime) -> Result<(), Fail> {
    let alloc = rt.alloc();
    let ran = play(&rt, alloc, chain_store(alloc)?, MemSink::new(alloc))?;
    is_whole(&rt, alloc, &ran)
}

// The chain leaves threads no choice, so that they write what one writes. Its two processors share
// both components, and neither ends while the other has one in hand: so they make both calls, and
// none is left for the end.
#[test]
fn plays_a_chain_with_threads(rt: HostRuntime) -> Result<(), Fail> {
    let alloc = rt.alloc();
    for _ in 0..20usize {
        let ran = play_with_threads(&rt, alloc, chain_store(alloc)?, false)?;
        is_whole(&rt, alloc, &ran)?;
        assert_eq!(rt; ran.by_processors, 2);
    }
    let ran = play_with_threads(&rt, alloc, chain_store(alloc)?, true)?;
    is_whole(&rt, alloc, &ran)?;
    assert_eq!(rt; ran.by_processors, 0);
    Ok(())
}

#[test]
fn has_no_threads_where_it_may_not_wait(rt: HostRuntime) -> Result<(), Fail> {
    let ran = play_still(&rt, rt.alloc())?;
    assert_eq!(rt; ran.status, Status::Usage);
    assert!(rt; ran.store.file("out.rec").is_none());
    assert!(rt; ran.store.file("t.txt").is_none());
    Ok(())
}

#[test]
fn leaves_both_files_where_the_line_fails(rt: HostRuntime) -> Result<(), Fail> {
    let alloc = rt.alloc();
    let mut out = MemSink::new(alloc);
    out.fail_at(1)?;
    let ran = play(&rt, alloc, chain_store(alloc)?, out)?;
    assert_eq!(rt; ran.status, Status::SinkFault);
    assert_eq!(rt; ran.out.bytes(), b"".as_slice());
    assert_eq!(rt; ran.err.bytes(), b"cyber: the output failed\n".as_slice());
    assert_eq!(rt;
        ran.store.file("out.rec"),
        Some(out_record(alloc)?.as_slice())
    );
    assert_eq!(rt; ran.store.file("t.txt"), Some(TRACE));
    Ok(())
}
