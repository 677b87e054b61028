// Words and records that are refused, each with ample memory.
use super::faults::{CALLS_BEFORE, FIRST_PUT};
use super::ran::{PASS, ends, lacks, run, run_over, store_of};
use super::samples::in_record;
use cy_store::{MemSink, MemStore};
use cyber_cli::Status;
use std::alloc::Global;
use std::process::Abort;
use std::test::Fail;
use std::thread::Threads;

const USAGE_LINE: &[u8] = b"cyber: the words are not of a known form\n";

// A record is refused with this line, and nothing is made.
fn is_refused(
    rt: &(impl Abort + Threads + Sync),
    alloc: Global,
    bytes: &[u8],
    line: &[u8],
) -> Result<(), Fail> {
    let ran = run(rt, alloc, &PASS, store_of(alloc, bytes)?)?;
    ends(rt, &ran, Status::Refused, b"", line);
    lacks(rt, &ran, "out.rec");
    lacks(rt, &ran, "t.txt");
    Ok(())
}

#[test]
fn refuses_a_cut_record_with_its_first_fault(rt: HostRuntime) -> Result<(), Fail> {
    let alloc = rt.alloc();
    for (shortest, longest, line) in [
        (0, 15, b"cyber: in.rec: not a record\n".as_slice()),
        (16, 2063, b"cyber: in.rec: at 0: Cut\n"),
        (2065, 2088, b"cyber: in.rec: at 2064: Cut\n"),
        (2090, 2112, b"cyber: in.rec: at 2089: Cut\n"),
        (2114, 2141, b"cyber: in.rec: at 2113: Cut\n"),
        (2143, 2157, b"cyber: in.rec: at 2142: Cut\n"),
    ] {
        for size in [shortest, longest] {
            let mut bytes = in_record(alloc)?;
            bytes.truncate(size);
            is_refused(&rt, alloc, &bytes, line)?;
        }
    }
    Ok(())
}

#[test]
fn passes_the_whole_sections_of_a_cut_record(rt: HostRuntime) -> Result<(), Fail> {
    let alloc = rt.alloc();
    let none = b"done: played 0, shadowed 0, calls 0, written 0\n".as_slice();
    let one = b"done: played 1, shadowed 0, calls 1, written 2\n".as_slice();
    for (size, line) in [
        (2064, none),
        (2089, none),
        (2113, none),
        (2142, one),
        (2158, one),
        (2208, one),
    ] {
        let mut bytes = in_record(alloc)?;
        bytes.truncate(size);
        let ran = run(&rt, alloc, &PASS, store_of(alloc, &bytes)?)?;
        ends(&rt, &ran, Status::Done, line, b"");
    }
    Ok(())
}

// The fifth piece of a record broke off after 20 bytes.
#[test]
fn refuses_a_record_that_broke_off(rt: HostRuntime) -> Result<(), Fail> {
    let alloc = rt.alloc();
    let mut store = store_of(alloc, &in_record(alloc)?)?;
    store.fail_at(CALLS_BEFORE + FIRST_PUT as u64 + 4, 20)?;
    let broken = run(&rt, alloc, &PASS, store)?;
    assert_eq!(rt; broken.status, Status::StoreFault);
    assert_eq!(rt;
        broken.store.file("out.rec").map(|file| file.len()),
        Some(2_159)
    );
    let words = ["pass", "out.rec", "o2", "t2", "/in", "/x"];
    let ran = run(&rt, alloc, &words, broken.store)?;
    let line = b"cyber: out.rec: at 2139: Cut\n";
    ends(&rt, &ran, Status::Refused, b"", line);
    Ok(())
}

#[test]
fn faults_where_the_record_is_missing(rt: HostRuntime) -> Result<(), Fail> {
    let alloc = rt.alloc();
    let missing = run(&rt, alloc, &PASS, MemStore::new(alloc))?;
    let line = b"cyber: in.rec: the store failed\n";
    ends(&rt, &missing, Status::StoreFault, b"", line);
    lacks(&rt, &missing, "out.rec");
    Ok(())
}

// The words are of no known form.
fn is_misused(
    rt: &(impl Abort + Threads + Sync),
    alloc: Global,
    words: &[&str],
) -> Result<(), Fail> {
    let ran = run(rt, alloc, words, store_of(alloc, &in_record(alloc)?)?)?;
    ends(rt, &ran, Status::Usage, b"", USAGE_LINE);
    lacks(rt, &ran, "b");
    Ok(())
}

#[test]
fn takes_known_words_alone(rt: HostRuntime) -> Result<(), Fail> {
    let alloc = rt.alloc();
    is_misused(&rt, alloc, &[])?;
    is_misused(&rt, alloc, &["pass", "a", "b", "/x", "/y"])?;
    is_misused(&rt, alloc, &["pass", "in.rec", "b", "c", "/x", "/x"])?;
    is_misused(&rt, alloc, &["pass", "in.rec", "b", "b", "/in", "/y"])?;
    is_misused(&rt, alloc, &["pass", "-a", "b", "c", "/in", "/y"])?;
    is_misused(&rt, alloc, &["info", "--x"])
}

// A play of files of which none is there, with these options, ends so.
fn ends_a_play(
    rt: &(impl Abort + Threads + Sync),
    alloc: Global,
    options: [&str; 2],
    status: Status,
) -> Result<(), Fail> {
    let words = [
        "play", "--serial", "--dag", "d", "--record", "r", "--out", "o", "--trace", "t",
        options[0], options[1],
    ];
    let ran = run(rt, alloc, &words, MemStore::new(alloc))?;
    let option = options[0];
    let value = options[1];
    assert_eq!(rt; ran.status, status, "{option} {value}");
    Ok(())
}

#[test]
fn refuses_an_empty_number(rt: HostRuntime) -> Result<(), Fail> {
    let alloc = rt.alloc();
    for options in [
        ["--begin", ""],
        ["--end", ""],
        ["--begin=", "--end=1"],
        ["--end=", "--begin=1"],
    ] {
        ends_a_play(&rt, alloc, options, Status::Usage)?;
    }
    ends_a_play(&rt, alloc, ["--begin", "0"], Status::StoreFault)?;
    ends_a_play(&rt, alloc, ["--begin=0", "--end=1"], Status::StoreFault)
}

// The last @ parts the name of a component, which isn't empty, and a time.
#[test]
fn takes_a_stop_of_a_name_and_a_time(rt: HostRuntime) -> Result<(), Fail> {
    let alloc = rt.alloc();
    for stop in [
        "",
        "p",
        "5",
        "@",
        "@5",
        "p@",
        "p@-1",
        "p@+1",
        "p@1x",
        "p@x1",
        "p@ 1",
        "p@1 ",
        "p@1@",
        "p@1@x",
        "-p@1",
        "p@18446744073709551616",
        "p@000000000000000000001",
    ] {
        ends_a_play(&rt, alloc, ["--stop", stop], Status::Usage)?;
    }
    ends_a_play(&rt, alloc, ["--stop=", "--end=1"], Status::Usage)?;
    ends_a_play(&rt, alloc, ["--stop=p", "--end=1"], Status::Usage)?;
    ends_a_play(&rt, alloc, ["--stop=p@1", "--stop=p@2"], Status::Usage)?;
    for stop in [
        "p@0",
        "p@5",
        "p@18446744073709551615",
        "p@00000000000000000005",
        "p@q@5",
        "@@5",
        "p@@5",
        "p=q@5",
        "p q@5",
    ] {
        ends_a_play(&rt, alloc, ["--stop", stop], Status::StoreFault)?;
    }
    ends_a_play(&rt, alloc, ["--stop=p=q@5", "--end=1"], Status::StoreFault)
}

// What can't be told ends as a fault of the sink, with a prefix of its line: that the words are of
// no form, that the record is none, and that it or the record that is written can't be used.
#[test]
fn faults_where_a_refusal_is_not_told(rt: HostRuntime) -> Result<(), Fail> {
    let alloc = rt.alloc();
    for (words, call, write, want) in [
        ([].as_slice(), 0, 1, b"".as_slice()),
        (PASS.as_slice(), 0, 1, b"".as_slice()),
        (PASS.as_slice(), 3, 1, b"".as_slice()),
        (PASS.as_slice(), 9, 2, b"cyber: ".as_slice()),
        (PASS.as_slice(), 9, 3, b"cyber: out.rec".as_slice()),
    ] {
        let mut err = MemSink::new(alloc);
        err.fail_at(write)?;
        let bytes = in_record(alloc)?;
        let whole = if call == 0 {
            &bytes[..0]
        } else {
            bytes.as_slice()
        };
        let mut store = store_of(alloc, whole)?;
        store.fail_at(call, 0)?;
        let ran = run_over(&rt, alloc, words, store, MemSink::new(alloc), err)?;
        ends(&rt, &ran, Status::SinkFault, b"", want);
    }
    Ok(())
}
