// Words that ask for `make`, and words that ask for nothing.
use super::ran::run;
use cy_store::{MemSink, MemStore};
use cyber_cli::Status;
use std::alloc::Global;
use std::process::Abort;
use std::test::Fail;
use std::thread::Threads;

#[test]
fn refuses_words_of_another_form(rt: HostRuntime) -> Result<(), Fail> {
    let alloc = rt.alloc();
    for words in [
        ["make", "0", "m"],
        ["make", "1048577", "m"],
        ["make", "18446744073709551617", "m"],
        ["make", "000000000000000000004", "m"],
        ["make", "4x", "m"],
        ["make", "-4", "m"],
        ["make", "", "m"],
        ["make", "4", ""],
        ["make", "4", "-m"],
        ["Make", "4", "m"],
    ] {
        let ran = run(&rt, alloc, &words, MemStore::new(alloc), MemSink::new(alloc))?;
        let number = words[1];
        assert_eq!(rt; ran.status, Status::Usage, "{number}");
        assert_eq!(rt; ran.store.file("m.adder.conf"), None, "{number}");
    }
    Ok(())
}

// A play of one message ends so with a prefix of so many bytes.
fn ends_with_prefix(
    rt: &(impl Abort + Threads + Sync),
    alloc: Global,
    bytes: usize,
    status: Status,
) -> Result<(), Fail> {
    let mut prefix = String::new(alloc);
    for _ in 0..bytes {
        prefix.push('m')?;
    }
    let words = ["make", "1", prefix.as_str()];
    let ran = run(rt, alloc, &words, MemStore::new(alloc), MemSink::new(alloc))?;
    assert_eq!(rt; ran.status, status, "{bytes}");
    Ok(())
}

#[test]
fn takes_a_prefix_of_a_million_bytes_and_no_longer_one(rt: HostRuntime) -> Result<(), Fail> {
    let alloc = rt.alloc();
    ends_with_prefix(&rt, alloc, 1_000_000, Status::Done)?;
    ends_with_prefix(&rt, alloc, 1_000_001, Status::Usage)?;
    ends_with_prefix(&rt, alloc, 5_000_000, Status::Usage)
}

#[test]
fn takes_leading_zeros(rt: HostRuntime) -> Result<(), Fail> {
    let alloc = rt.alloc();
    let words = ["make", "00000000000000000001", "m"];
    let ran = run(&rt, alloc, &words, MemStore::new(alloc), MemSink::new(alloc))?;
    assert_eq!(rt; ran.status, Status::Done);
    Ok(())
}
