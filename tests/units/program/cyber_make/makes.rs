// Plays that are made and played.
use super::ran::run;
use cy_store::{MemSink, MemStore};
use cyber_cli::Status;
use std::test::Fail;

/// The trace of four messages, as `tests/replay.py` writes it.
const TRACE: &[u8] = b"cyber-trace 1\nplayed 4 shadowed 0\n\
    component \"adder\"\nroles 0010\ncall 1/1 3 1 1@4000000=-1734\nend DATA_WAIT next 2\n\
    component \"band\"\nroles 0\ncall 1/1 1 1@4000000=-1734\nend DATA_WAIT next 2\n\
    component \"last8\"\nroles 0\ncall 1/1 1 1@4000000=-1734\nend DATA_WAIT next 2\n\
    component \"late\"\nroles 000\ncall 1/1 1 1@6000000=-980\ncall 3/3 3 2@9000000=-836\n\
    end DATA_WAIT next 4\n\
    tape \"/a\" 1\ntape \"/a\" 2\ntape \"/b\" 1\ntape \"/a\" 3\ntape \"/sum\" 1\n\
    tape \"/band\" 1\ntape \"/win\" 1\ntape \"/late\" 1\ntape \"/late\" 2\n";

const LINE: &[u8] = b"done: played 4, shadowed 0, calls 5, written 9\n";

#[test]
fn makes_four_messages_and_plays_them(rt: HostRuntime) -> Result<(), Fail> {
    let alloc = rt.alloc();
    let words = ["make", "4", "m"];
    let ran = run(&rt, alloc, &words, MemStore::new(alloc), MemSink::new(alloc))?;
    assert_eq!(rt; ran.status, Status::Done);
    assert_eq!(rt; ran.out.bytes(), LINE);
    assert_eq!(rt; ran.err.bytes(), b"".as_slice());
    assert_eq!(rt; ran.store.file("m.trace"), Some(TRACE));
    assert_eq!(rt;
        ran.store.file("m.record").map(|file| file.len()),
        Some(2310)
    );
    assert_eq!(rt; ran.store.file("m.out").map(|file| file.len()), Some(2599));
    Ok(())
}

#[test]
fn makes_up_to_a_name_that_has_to_be_quoted(rt: HostRuntime) -> Result<(), Fail> {
    let alloc = rt.alloc();
    for prefix in ["a b", "\"", "\\", "\u{1}é\n"] {
        let words = ["make", "1", prefix];
        let ran = run(&rt, alloc, &words, MemStore::new(alloc), MemSink::new(alloc))?;
        assert_eq!(rt; ran.status, Status::Done, "{prefix}");
    }
    Ok(())
}

#[test]
fn leaves_all_files_where_the_line_fails(rt: HostRuntime) -> Result<(), Fail> {
    let alloc = rt.alloc();
    let mut out = MemSink::new(alloc);
    out.fail_at(1)?;
    let ran = run(&rt, alloc, &["make", "4", "m"], MemStore::new(alloc), out)?;
    assert_eq!(rt; ran.status, Status::SinkFault);
    assert_eq!(rt; ran.err.bytes(), b"cyber: the output failed\n".as_slice());
    assert_eq!(rt; ran.store.file("m.trace"), Some(TRACE));
    Ok(())
}
