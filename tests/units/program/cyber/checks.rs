// The command `check`: what it prints, and each call of the store failing in turn.
use super::ran::{Ran, ends, run};
use cy_store::{MemStore, Store};
use cyber_cli::Status;
use std::alloc::Global;
use std::test::Fail;
use std::thread::Threads;

const CHECK: [&str; 5] = ["check", "--dag", "d.dag", "--sched", "s.sched"];

const DAG: &str =
    "module_config { module_library: \"x\" components { class_name: \"PassComponent\" \
    config { name: \"p\" config_file_path: \"p.conf\" readers { channel: \"/a\" \
    pending_queue_size: 0 } } } }";

const CONFIG: &str = "out: \"/o\" colour: 3";

const SCHED: &str =
    "scheduler_conf { classic_conf { groups { name: \"g\" tasks { name: \"p\" prio: 3 } } } \
    shade: 1 }";

const TEXT: &str = "component \"p\" class PassComponent reads \"/a\" queue 1 writes \"/o\"\n\
    context \"g\" processors 1 order \"p\"\nunknown p.conf colour\n\
    unknown s.sched scheduler_conf.shade\nok\n";

/// The calls that make the three files.
const CALLS_BEFORE: u64 = 6;

/// A size and a read of each of them.
const CALLS: usize = 6;

// The three files.
fn files(alloc: Global) -> Result<MemStore, Fail> {
    let mut store = MemStore::new(alloc);
    store.create("d.dag")?;
    store.put_at("d.dag", 0, DAG.as_bytes())?;
    store.create("p.conf")?;
    store.put_at("p.conf", 0, CONFIG.as_bytes())?;
    store.create("s.sched")?;
    store.put_at("s.sched", 0, SCHED.as_bytes())?;
    Ok(store)
}

// What is told where this call of the program fails.
fn line_at(call: usize) -> &'static [u8] {
    match call {
        1 | 2 => b"cyber: d.dag: the store failed\n".as_slice(),
        3 | 4 => b"cyber: p.conf: the store failed\n".as_slice(),
        _ => b"cyber: s.sched: the store failed\n".as_slice(),
    }
}

// The run where this call of the program fails.
fn failing_at(
    rt: &(impl Threads + Sync),
    alloc: Global,
    call: usize,
) -> Result<Ran<MemStore>, Fail> {
    let mut store = files(alloc)?;
    store.fail_at(CALLS_BEFORE + call as u64, 0)?;
    run(rt, alloc, &CHECK, store)
}

#[test]
fn prints_what_configuration_files_say(rt: HostRuntime) -> Result<(), Fail> {
    let alloc = rt.alloc();
    let ran = run(&rt, alloc, &CHECK, files(alloc)?)?;
    ends(&rt, &ran, Status::Done, TEXT.as_bytes(), b"");
    Ok(())
}

#[test]
fn names_the_file_whose_call_failed(rt: HostRuntime) -> Result<(), Fail> {
    let alloc = rt.alloc();
    for call in 1..=CALLS {
        let ran = failing_at(&rt, alloc, call)?;
        ends(&rt, &ran, Status::StoreFault, b"", line_at(call));
    }
    let done = failing_at(&rt, alloc, CALLS + 1)?;
    assert_eq!(rt; done.status, Status::Done);
    Ok(())
}
