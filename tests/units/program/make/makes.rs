// Files that are made in memory.
use super::samples::{ADDER, BAND, DAG, LAST8, LATE, four_record, two_record};
use cy_make::write_inputs;
use cy_store::MemStore;
use std::test::Fail;

#[test]
fn makes_the_files_of_four_messages(rt: HostRuntime) -> Result<(), Fail> {
    let alloc = rt.alloc();
    let mut store = MemStore::new(alloc);
    write_inputs(alloc, &mut store, 4, "m")?;
    for (name, want) in [
        ("m.adder.conf", ADDER),
        ("m.band.conf", BAND),
        ("m.last8.conf", LAST8),
        ("m.late.conf", LATE),
        ("m.dag", DAG),
    ] {
        assert_eq!(rt; store.file(name), Some(want), "{name}");
    }
    let want = four_record(alloc)?;
    assert!(rt; store.file("m.record") == Some(want.as_slice()));
    Ok(())
}

#[test]
fn makes_a_record_of_one_channel(rt: HostRuntime) -> Result<(), Fail> {
    let alloc = rt.alloc();
    let mut store = MemStore::new(alloc);
    write_inputs(alloc, &mut store, 2, "m")?;
    let want = two_record(alloc)?;
    assert!(rt; store.file("m.record") == Some(want.as_slice()));
    Ok(())
}

#[test]
fn quotes_the_names_of_component_files(rt: HostRuntime) -> Result<(), Fail> {
    let alloc = rt.alloc();
    let mut store = MemStore::new(alloc);
    write_inputs(alloc, &mut store, 1, "a \"b\"")?;
    let want = b"module_config {\n  module_library: \"own\"\n  components {\n\
        \x20   class_name: \"SumComponent\"\n    config {\n      name: \"adder\"\n\
        \x20     config_file_path: \"a \\\"b\\\".adder.conf\"\n";
    assert!(rt;
        store
            .file("a \"b\".dag")
            .is_some_and(|dag| dag.starts_with(want))
    );
    Ok(())
}
