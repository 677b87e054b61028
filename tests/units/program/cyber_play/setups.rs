// What setting up a replay of the chain answers where a file is in the way.
use super::faults::{CALLS, CALLS_BEFORE, READS};
use super::ran::chain_store;
use cy_msg::{Bytes, Components, Filter, Items, Request, StopAt, Text};
use cy_setup::{Fault, Refusal, Replay, SetupError, set_up};
use cy_store::{MemStore, Store};
use std::alloc::Global;
use std::test::Fail;
use std::thread::Threads;

// Sets the chain up, with a scheduler file and a stop or without them, to play all of its record.
fn set_up_chain(
    rt: &(impl Threads + Sync),
    alloc: Global,
    store: &mut MemStore,
    sched: Option<&str>,
    stop: Option<StopAt>,
) -> Result<Replay, SetupError> {
    let filter = Filter {
        only: None,
        drop: Items::new(Vec::new(alloc)),
        begin: 0,
        end: u64::MAX,
    };
    let request = Request {
        components: Components::Files {
            dag: "d.dag",
            sched,
        },
        input: "a.rec",
        filter: &filter,
        stop,
    };
    set_up(rt, alloc, store, &request)
}

// Which kind of fault a file has.
fn kind_of(fault: &Fault) -> &'static str {
    match fault {
        Fault::ConfigTooLarge { .. } => "ConfigTooLarge",
        Fault::Text(_) => "Text",
        Fault::Dag(_) => "Dag",
        Fault::Sched(_) => "Sched",
        Fault::Answers(_) => "Answers",
        Fault::StopUnknown { .. } => "StopUnknown",
        Fault::Record(_) => "Record",
        Fault::TooMany { .. } => "TooMany",
        Fault::TraceTooLarge { .. } => "TraceTooLarge",
        Fault::BadLine { .. } => "BadLine",
        Fault::Unlawful => "Unlawful",
        Fault::Also { .. } => "Also",
        Fault::Differs { .. } => "Differs",
        Fault::TypesDiffer { .. } => "TypesDiffer",
        Fault::DescriptionsDiffer { .. } => "DescriptionsDiffer",
    }
}

// What setting up came to, in one line: the file in the way and what is the matter with it.
fn told(alloc: Global, answer: Result<Replay, SetupError>) -> Result<String, Fail> {
    Ok(match answer {
        Ok(_) => String::from_str(alloc, "set up")?,
        Err(SetupError::Refused(refusal)) => {
            let kind = kind_of(&refusal.fault);
            format!(in alloc; "{} {kind}", refusal.file.as_str())?
        }
        Err(SetupError::Store { file }) => format!(in alloc; "{} Store", file.as_str())?,
        Err(SetupError::Memory) => String::from_str(alloc, "Memory")?,
    })
}

// The calls of a play that read, and then none.
#[test]
fn names_the_file_whose_call_failed(rt: HostRuntime) -> Result<(), Fail> {
    let alloc = rt.alloc();
    for call in 1..=READS {
        let (file, _) = CALLS[call - 1];
        let mut store = chain_store(alloc)?;
        store.fail_at(CALLS_BEFORE + call as u64, 0)?;
        let answer = set_up_chain(&rt, alloc, &mut store, None, None);
        let want = format!(in alloc; "{file} Store")?;
        assert_eq!(rt; told(alloc, answer)?.as_str(), want.as_str(), "{call}");
    }
    let mut store = chain_store(alloc)?;
    store.fail_at(CALLS_BEFORE + READS as u64 + 1, 0)?;
    let answer = set_up_chain(&rt, alloc, &mut store, None, None);
    assert_eq!(rt; told(alloc, answer)?.as_str(), "set up");
    let mut store = chain_store(alloc)?;
    let answer = set_up_chain(&rt, alloc, &mut store, Some("s.sched"), None);
    assert_eq!(rt; told(alloc, answer)?.as_str(), "s.sched Store");
    Ok(())
}

// A cycle is a fault of the wiring, which is one of the DAG file.
#[test]
fn names_the_file_that_is_refused(rt: HostRuntime) -> Result<(), Fail> {
    let alloc = rt.alloc();
    for (name, text, want) in [
        ("d.dag", "module_config {", "d.dag Text"),
        ("d.dag", "", "d.dag Dag"),
        ("p.conf", "out: /o", "p.conf Text"),
        ("r.conf", "", "r.conf Dag"),
        ("p.conf", "out: \"/a\"", "d.dag Dag"),
        ("s.sched", "scheduler_conf", "s.sched Text"),
        ("s.sched", "", "s.sched Sched"),
        ("a.rec", "no record", "a.rec Record"),
    ] {
        let mut store = chain_store(alloc)?;
        store.create("s.sched")?;
        store.put_at("s.sched", 0, b"scheduler_conf { default_proc_num: 1 }")?;
        store.create(name)?;
        store.put_at(name, 0, text.as_bytes())?;
        let answer = set_up_chain(&rt, alloc, &mut store, Some("s.sched"), None);
        assert_eq!(rt; told(alloc, answer)?.as_str(), want, "{name} {text}");
    }
    Ok(())
}

// The record of the chain has one message, at time 1.
#[test]
fn counts_the_messages_up_to_a_stop(rt: HostRuntime) -> Result<(), Fail> {
    let alloc = rt.alloc();
    for (component, time, number, after) in [
        ("p", 0, 0, 0),
        ("p", 1, 0, 1),
        ("r", 0, 1, 0),
        ("r", u64::MAX, 1, 1),
    ] {
        let mut store = chain_store(alloc)?;
        let asked = Some(StopAt { component, time });
        let Ok(replay) = set_up_chain(&rt, alloc, &mut store, None, asked) else {
            panic!(rt; "{component} {time}");
        };
        let stop = replay.stop.map(|stop| (stop.component, stop.after));
        assert_eq!(rt; stop, Some((number, after)), "{component} {time}");
    }
    Ok(())
}

// It comes behind a fault of the wiring.
#[test]
fn refuses_a_stop_of_no_component(rt: HostRuntime) -> Result<(), Fail> {
    let alloc = rt.alloc();
    for (component, text, want) in [
        ("q", "out: \"/o\"", "d.dag StopUnknown"),
        ("/o", "out: \"/o\"", "d.dag StopUnknown"),
        ("q", "out: \"/a\"", "d.dag Dag"),
    ] {
        let mut store = chain_store(alloc)?;
        store.create("p.conf")?;
        store.put_at("p.conf", 0, text.as_bytes())?;
        let asked = Some(StopAt { component, time: 5 });
        let answer = set_up_chain(&rt, alloc, &mut store, None, asked);
        assert_eq!(rt; told(alloc, answer)?.as_str(), want, "{component} {text}");
    }
    Ok(())
}

// The line of a file that has a fault.
fn line_of(alloc: Global, fault: Fault) -> Result<Bytes, Fail> {
    let file = Text::new(alloc, "f")?;
    let refusal = Refusal { file, fault };
    Ok(refusal.line(alloc)?)
}

#[test]
fn tells_what_is_wrong_with_what_is_judged(rt: HostRuntime) -> Result<(), Fail> {
    let alloc = rt.alloc();
    let large = Fault::TraceTooLarge { count: 1_073_741_825 };
    assert!(rt; large.is_limit());
    let line = line_of(alloc, large)?;
    let want = "cyber: f: limit TraceTooLarge passed: 1073741825\n";
    assert_eq!(rt; line.as_slice(), want.as_bytes());
    let line = line_of(alloc, Fault::BadLine { line: 3 })?;
    assert_eq!(rt; line.as_slice(), "cyber: f: line 3: Bad\n".as_bytes());
    let line = line_of(alloc, Fault::Unlawful)?;
    assert_eq!(rt; line.as_slice(), "cyber: f: not a lawful run\n".as_bytes());
    let line = line_of(alloc, Fault::Differs { place: 2270 })?;
    assert_eq!(rt; line.as_slice(), "cyber: f: differs at 2270\n".as_bytes());
    Ok(())
}
