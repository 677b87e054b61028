// Each call of the store fails in turn.
use cy_make::{Config, MakeError, write_inputs};
use cy_store::MemStore;
use std::test::Fail;

// One call makes each file, and one puts each of its pieces. Of the record these are the header
// twice, the section of each of its two channels, the header and the body of its chunk, and the
// index.
#[test]
fn names_the_file_whose_call_failed(rt: HostRuntime) -> Result<(), Fail> {
    let alloc = rt.alloc();
    for (first, last, want) in [
        (1, 2, MakeError::Config(Config::Adder)),
        (3, 4, MakeError::Config(Config::Band)),
        (5, 6, MakeError::Config(Config::Last8)),
        (7, 8, MakeError::Config(Config::Late)),
        (9, 10, MakeError::Config(Config::Dag)),
        (11, 18, MakeError::Record),
    ] {
        for call in first..=last {
            let mut store = MemStore::new(alloc);
            store.fail_at(call, 0)?;
            let made = write_inputs(alloc, &mut store, 4, "m");
            assert_eq!(rt; made, Err(want), "{call}");
        }
    }
    let mut store = MemStore::new(alloc);
    store.fail_at(19, 0)?;
    assert_eq!(rt; write_inputs(alloc, &mut store, 4, "m"), Ok(()));
    Ok(())
}
