// Files that are read whole.
use cy_store::{MemStore, ReadFile, Store, StoreError, read_file};
use std::alloc::Global;
use std::test::Fail;

// What reading came to, without the bytes: how many they are, and whether they were read.
fn came_to(
    alloc: Global,
    store: &mut MemStore,
    name: &str,
    longest: u64,
) -> Result<(u64, bool), StoreError> {
    match read_file(alloc, store, name, longest)? {
        ReadFile::Whole(bytes) => Ok((bytes.len() as u64, true)),
        ReadFile::Longer { size } => Ok((size, false)),
    }
}

#[test]
fn reads_up_to_the_longest(rt: HostRuntime) -> Result<(), Fail> {
    let alloc = rt.alloc();
    let mut store = MemStore::new(alloc);
    store.create("empty")?;
    store.create("six")?;
    store.put_at("six", 0, b"abcdef")?;
    for (name, longest, want) in [
        ("empty", 0, Ok((0, true))),
        ("empty", 9, Ok((0, true))),
        ("six", 6, Ok((6, true))),
        ("six", 7, Ok((6, true))),
        ("six", 5, Ok((6, false))),
        ("six", 0, Ok((6, false))),
        ("none", 9, Err(StoreError::Failed)),
    ] {
        assert_eq!(rt;
            came_to(alloc, &mut store, name, longest),
            want,
            "{name} {longest}"
        );
    }
    Ok(())
}

// More bytes than one piece holds.
fn long_bytes(alloc: Global) -> Result<Vec<u8>, Fail> {
    let mut bytes = vec![in alloc; 7u8; 1_048_577]?;
    bytes[0] = 1;
    bytes[1_048_575] = 2;
    bytes[1_048_576] = 3;
    Ok(bytes)
}

#[test]
fn joins_the_pieces_of_a_long_file(rt: HostRuntime) -> Result<(), Fail> {
    let alloc = rt.alloc();
    let bytes = long_bytes(alloc)?;
    let mut store = MemStore::new(alloc);
    store.create("long")?;
    store.put_at("long", 0, &bytes)?;
    // After two calls that made it there are the size and two pieces, and no other.
    store.fail_at(6, 0)?;
    match read_file(alloc, &mut store, "long", 2_000_000)? {
        ReadFile::Whole(read) => assert!(rt; read == bytes),
        ReadFile::Longer { .. } => assert!(rt; false),
    }
    Ok(())
}
