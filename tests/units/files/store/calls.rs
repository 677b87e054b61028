// Stores and sinks, in memory and on the machine.
use cy_store::{MemSink, MemStore, RealSink, RealStore, Sink, SinkError, Store, StoreError};
use std::alloc::Global;
use std::fs;
use std::fs::{File, OpenOptions};
use std::io::BufWriter;
use std::process::Abort;
use std::test::Fail;

// Puts bytes at a place that the file has.
fn put<S: Store>(store: &mut S, name: &str, at: u64, bytes: &[u8]) -> Result<(), StoreError> {
    if at > store.size(name)? {
        return Err(StoreError::Failed);
    }
    store.put_at(name, at, bytes)
}

// Reads at most `len` bytes from a place on, and compares them.
fn expect_bytes<S: Store>(
    rt: &impl Abort,
    alloc: Global,
    store: &mut S,
    name: &str,
    (at, len, want): (u64, usize, &[u8]),
) -> Result<(), StoreError> {
    let mut buf = vec![in alloc; 0u8; len]?;
    let count = store.read_at(name, at, buf.as_mut_slice())?;
    assert_eq!(rt; &buf.as_slice()[..count], want, "at {at}");
    Ok(())
}

// Makes, writes, overwrites, appends, reads and empties a file, through the trait.
fn goes_round<S: Store>(
    rt: &impl Abort,
    alloc: Global,
    store: &mut S,
    name: &str,
) -> Result<(), StoreError> {
    assert_eq!(rt; store.size(name), Err(StoreError::Failed));
    assert_eq!(rt; put(store, name, 0, b"a"), Err(StoreError::Failed));
    let mut buf = [0u8; 1];
    assert_eq!(rt; store.read_at(name, 0, &mut buf), Err(StoreError::Failed));
    store.create(name)?;
    put(store, name, 0, b"abcdef")?;
    put(store, name, 4, b"EFGH")?;
    put(store, name, 8, b"!")?;
    put(store, name, 1, b"")?;
    assert_eq!(rt; store.size(name)?, 9);
    for part in [
        (0, 9, b"abcdEFGH!".as_slice()),
        (3, 2, b"dE".as_slice()),
        (8, 100, b"!".as_slice()),
        (9, 5, b"".as_slice()),
        (20, 5, b"".as_slice()),
        (2, 0, b"".as_slice()),
    ] {
        expect_bytes(rt, alloc, store, name, part)?;
    }
    store.create(name)?;
    assert_eq!(rt; store.size(name)?, 0);
    Ok(())
}

#[test]
fn goes_round_in_memory(rt: HostRuntime) -> Result<(), Fail> {
    goes_round(&rt, rt.alloc(), &mut MemStore::new(rt.alloc()), "a")?;
    Ok(())
}

#[test]
fn goes_round_on_the_machine(rt: HostRuntime) -> Result<(), Fail> {
    // an earlier run may have left it
    let _ = fs::remove_file(&rt, "a.bin");
    let mut store = RealStore::new(&rt);
    goes_round(&rt, rt.alloc(), &mut store, "a.bin")?;
    fs::remove_file(&rt, "a.bin")?;
    assert_eq!(rt; store.create("none/a.bin"), Err(StoreError::Failed));
    assert_eq!(rt; store.create("."), Err(StoreError::Failed));
    Ok(())
}

// Calls 1 to 6: makes a file, looks and puts, looks and puts, and reads.
fn script(store: &mut MemStore) -> Result<(), StoreError> {
    store.create("a")?;
    put(store, "a", 0, b"abcd")?;
    put(store, "a", 2, b"XYZ")?;
    let mut buf = [0u8; 8];
    let _ = store.read_at("a", 0, &mut buf)?;
    Ok(())
}

#[test]
fn fails_each_call(rt: HostRuntime) -> Result<(), Fail> {
    for (call, want) in [
        (1, None),
        (2, Some(b"".as_slice())),
        (3, Some(b"a".as_slice())),
        (4, Some(b"abcd".as_slice())),
        (5, Some(b"abXd".as_slice())),
        (6, Some(b"abXYZ".as_slice())),
    ] {
        let mut store = MemStore::new(rt.alloc());
        store.fail_at(call, 1)?;
        assert_eq!(rt; script(&mut store), Err(StoreError::Failed), "call {call}");
        assert_eq!(rt; store.file("a"), want, "call {call}");
    }
    let mut store = MemStore::new(rt.alloc());
    store.fail_at(7, 0)?;
    script(&mut store)?;
    assert_eq!(rt; store.size("a"), Err(StoreError::Failed));
    assert_eq!(rt; store.size("a"), Ok(5));
    Ok(())
}

#[test]
fn keeps_the_prefix_of_a_put(rt: HostRuntime) -> Result<(), Fail> {
    for (keep, want) in [
        (0, b"abcd".as_slice()),
        (1, b"abXd".as_slice()),
        (2, b"abXY".as_slice()),
        (3, b"abXYZ".as_slice()),
        (9, b"abXYZ".as_slice()),
    ] {
        let mut store = MemStore::new(rt.alloc());
        store.fail_put(2, keep)?;
        assert_eq!(rt; script(&mut store), Err(StoreError::Failed), "keep {keep}");
        assert_eq!(rt; store.file("a"), Some(want), "keep {keep}");
    }
    Ok(())
}

#[test]
fn fails_a_write(rt: HostRuntime) -> Result<(), Fail> {
    let mut sink = MemSink::new(rt.alloc());
    sink.fail_at(2)?;
    sink.write(b"ab")?;
    assert_eq!(rt; sink.write(b"cd"), Err(SinkError::Failed));
    sink.write(b"ef")?;
    assert_eq!(rt; sink.bytes(), b"abef".as_slice());
    Ok(())
}

#[test]
fn writes_to_the_machine(rt: HostRuntime) -> Result<(), Fail> {
    let mut sink = RealSink::new(File::create(&rt, "out.bin")?);
    sink.write(b"ab")?;
    sink.write(b"cd")?;
    assert_eq!(rt; fs::read(&rt, "out.bin")?.as_slice(), b"abcd".as_slice());
    fs::remove_file(&rt, "out.bin")?;
    // What a stream gathers is handed on before the write returns.
    let mut gathered = RealSink::new(BufWriter::new(
        rt.alloc(),
        File::create(&rt, "gathered.bin")?,
    )?);
    gathered.write(b"ab")?;
    assert_eq!(rt; fs::read(&rt, "gathered.bin")?.as_slice(), b"ab".as_slice());
    fs::remove_file(&rt, "gathered.bin")?;
    RealSink::new(rt.stdout()).write(b"")?;
    RealSink::new(rt.stderr()).write(b"")?;
    Ok(())
}

// A device that takes no byte is seen as a failure in the call itself.
#[test]
fn sees_a_full_device(rt: HostRuntime) -> Result<(), Fail> {
    let mut sink = RealSink::new(OpenOptions::new().write(true).open(&rt, "/dev/full")?);
    assert_eq!(rt; sink.write(b"a"), Err(SinkError::Failed));
    Ok(())
}
