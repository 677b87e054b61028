// A store to which two names are one file: a command that would write one of them is refused.
use super::ran::{Ran, ends, run};
use super::samples::in_record;
use cy_setup::{Fault, SetupError, test_apart};
use cy_store::{MemStore, Store, StoreError};
use cyber_cli::Status;
use std::alloc::Global;
use std::process::Abort;
use std::test::Fail;
use std::thread::Threads;

/// A store in memory, in which two names are said to be those of one file.
#[derive(Drop)]
struct Alike<'a> {
    inner: MemStore,
    pair: (&'a str, &'a str),
    creations: u32,
}

impl Store for Alike<'_> {
    // Nothing is proved of it, so that its ghost member is left open.
    ghost shows = { ? };

    fn size(&mut self, name: &str) -> Result<u64, StoreError> {
        self.inner.size(name)
    }

    fn read_at(&mut self, name: &str, at: u64, buf: &mut [u8]) -> Result<usize, StoreError> {
        self.inner.read_at(name, at, buf)
    }

    fn create(&mut self, name: &str) -> Result<(), StoreError> {
        self.creations += 1;
        self.inner.create(name)
    }

    fn put_at(&mut self, name: &str, at: u64, bytes: &[u8]) -> Result<(), StoreError> {
        self.inner.put_at(name, at, bytes)
    }

    fn same(&mut self, name: &str, other: &str) -> bool {
        let (one, two) = self.pair;
        (name == one && other == two) || (name == two && other == one)
    }
}

const DAG: &[u8] = b"module_config {\n  module_library: \"x\"\n\
    \x20 components {\n    class_name: \"PassComponent\"\n\
    \x20   config { name: \"p\" config_file_path: \"p.conf\" readers { channel: \"/in\" } }\n  }\n\
    \x20 components {\n    class_name: \"PassComponent\"\n\
    \x20   config { name: \"r\" config_file_path: \"r.conf\" readers { channel: \"/o\" } }\n  }\n\
    }\n";

const SCHED: &[u8] = b"scheduler_conf { policy: \"classic\" classic_conf { groups { name: \"g\" processor_num: 1 } } }\n";

// A store with the files of a play, in which these two names are one file.
fn store_of<'a>(alloc: Global, pair: (&'a str, &'a str)) -> Result<Alike<'a>, Fail> {
    let record = in_record(alloc)?;
    let mut inner = MemStore::new(alloc);
    for (name, bytes) in [
        ("d.dag", DAG),
        ("p.conf", b"out: \"/o\"\n".as_slice()),
        ("r.conf", b"out: \"/z\"\n"),
        ("s.conf", SCHED),
        ("in.rec", record.as_slice()),
    ] {
        inner.create(name)?;
        inner.put_at(name, 0, bytes)?;
    }
    Ok(Alike {
        inner,
        pair,
        creations: 0,
    })
}

// The words of a line, run over such a store.
fn run_line<'a>(
    rt: &(impl Threads + Sync),
    alloc: Global,
    line: &str,
    pair: (&'a str, &'a str),
) -> Result<Ran<Alike<'a>>, Fail> {
    let mut words = Vec::new(alloc);
    for word in line.split(' ') {
        words.push(word)?;
    }
    run(rt, alloc, &words, store_of(alloc, pair)?)
}

// It is refused with a line that names both, and makes no file.
fn is_refused(
    rt: &(impl Abort + Threads + Sync),
    alloc: Global,
    line: &str,
    name: &str,
    other: &str,
) -> Result<(), Fail> {
    for pair in [(name, other), (other, name)] {
        let ran = run_line(rt, alloc, line, pair)?;
        let told = format!(in alloc; "cyber: {name}: is also {other}\n")?;
        ends(rt, &ran, Status::Refused, b"", told.as_bytes());
        assert_eq!(rt; ran.store.creations, 0, "{line}: {name} {other}");
        assert!(rt; ran.store.inner.file(name) != Some(b"".as_slice()));
    }
    Ok(())
}

const PLAY: &str = "play --serial --dag d.dag --sched s.conf --record in.rec --out o.rec --trace t.txt";

#[test]
fn writes_no_file_that_it_reads_or_writes_by_another_name(rt: HostRuntime) -> Result<(), Fail> {
    let alloc = rt.alloc();
    for (line, name, other) in [
        (PLAY, "o.rec", "d.dag"),
        (PLAY, "o.rec", "p.conf"),
        (PLAY, "o.rec", "r.conf"),
        (PLAY, "o.rec", "s.conf"),
        (PLAY, "o.rec", "in.rec"),
        (PLAY, "o.rec", "/dev/stdout"),
        (PLAY, "t.txt", "d.dag"),
        (PLAY, "t.txt", "p.conf"),
        (PLAY, "t.txt", "r.conf"),
        (PLAY, "t.txt", "s.conf"),
        (PLAY, "t.txt", "in.rec"),
        (PLAY, "t.txt", "/dev/stdout"),
        (PLAY, "t.txt", "o.rec"),
        ("pass in.rec o.rec t.txt /in /out", "o.rec", "in.rec"),
        ("pass in.rec o.rec t.txt /in /out", "t.txt", "in.rec"),
        ("pass in.rec o.rec t.txt /in /out", "t.txt", "o.rec"),
        ("pass in.rec o.rec t.txt /in /out", "o.rec", "/dev/stdout"),
        ("recover in.rec o.rec", "o.rec", "in.rec"),
        ("recover in.rec o.rec", "o.rec", "/dev/stdout"),
        ("split in.rec o.rec --channels=/in", "o.rec", "in.rec"),
        ("split in.rec o.rec --channels=/in", "o.rec", "/dev/stdout"),
    ] {
        is_refused(&rt, alloc, line, name, other)?;
    }
    Ok(())
}

const MADE: [&str; 9] = [
    "/dev/stdout",
    "m.adder.conf",
    "m.band.conf",
    "m.last8.conf",
    "m.late.conf",
    "m.dag",
    "m.record",
    "m.out",
    "m.trace",
];

#[test]
fn makes_no_two_files_of_one(rt: HostRuntime) -> Result<(), Fail> {
    let alloc = rt.alloc();
    for (index, name) in MADE.iter().enumerate() {
        for other in &MADE[..index] {
            is_refused(&rt, alloc, "make 4 m", name, other)?;
        }
    }
    Ok(())
}

// Two that are read may be one file.
#[test]
fn reads_one_file_by_two_names(rt: HostRuntime) -> Result<(), Fail> {
    let alloc = rt.alloc();
    let ran = run_line(&rt, alloc, PLAY, ("p.conf", "r.conf"))?;
    let line = b"done: played 1, shadowed 0, calls 2, written 3\n";
    ends(&rt, &ran, Status::Done, line, b"");
    Ok(())
}

// A component file that is named for what is written is refused by any store.
#[test]
fn writes_over_no_component_file(rt: HostRuntime) -> Result<(), Fail> {
    let alloc = rt.alloc();
    let line = "play --serial --dag d.dag --record in.rec --out p.conf --trace t.txt";
    let ran = run_line(&rt, alloc, line, ("p.conf", "p.conf"))?;
    let told = b"cyber: p.conf: is also p.conf\n";
    ends(&rt, &ran, Status::Refused, b"", told);
    assert_eq!(rt; ran.store.inner.file("p.conf"), Some(b"out: \"/o\"\n".as_slice()));
    Ok(())
}

#[test]
fn names_the_first_that_is_also_written(rt: HostRuntime) -> Result<(), Fail> {
    let alloc = rt.alloc();
    let mut store = MemStore::new(alloc);
    assert!(rt; test_apart(alloc, &mut store, "o.rec", &["a", "./o.rec", ""]).is_ok());
    let Err(SetupError::Refused(refusal)) =
        test_apart(alloc, &mut store, "o.rec", &["a", "o.rec", "o.rec"])
    else {
        return Err(Fail::new("it isn't refused"));
    };
    assert_eq!(rt; refusal.file.as_str(), "o.rec");
    assert!(rt; matches!(&refusal.fault, Fault::Also { name } if name.as_str() == "o.rec"));
    Ok(())
}
