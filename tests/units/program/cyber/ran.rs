// A run of the program in memory.
use cy_msg::Text;
use cy_store::{MemSink, MemStore, Store};
use cyber_cli::{Status, cyber_still};
use std::alloc::Global;
use std::process::Abort;
use std::test::Fail;
use std::thread::Threads;

/// The words of `pass` over `in.rec`.
pub const PASS: [&str; 6] = ["pass", "in.rec", "out.rec", "t.txt", "/in", "/out"];

/// What the program answered, and what it left.
#[derive(Drop)]
pub struct Ran<S> {
    pub status: Status,
    pub store: S,
    pub out: MemSink,
    pub err: MemSink,
}

/// A store in memory that holds these bytes as `in.rec`, after two calls.
pub fn store_of(alloc: Global, bytes: &[u8]) -> Result<MemStore, Fail> {
    let mut store = MemStore::new(alloc);
    store.create("in.rec")?;
    store.put_at("in.rec", 0, bytes)?;
    Ok(store)
}

/// Runs the program on these words, over this store and these sinks.
pub fn run_over<S: Store + Drop>(
    rt: &(impl Threads + Sync),
    alloc: Global,
    words: &[&str],
    store: S,
    out: MemSink,
    err: MemSink,
) -> Result<Ran<S>, Fail> {
    let mut texts = Vec::new(alloc);
    for word in words {
        texts.push(Text::new(alloc, word)?)?;
    }
    let mut ran = Ran {
        status: Status::Limit,
        store,
        out,
        err,
    };
    ran.status = cyber_still(rt, alloc, &texts, &mut ran.store, &mut ran.out, &mut ran.err);
    Ok(ran)
}

/// Runs the program on these words, over this store and sinks that never fail.
pub fn run<S: Store + Drop>(
    rt: &(impl Threads + Sync),
    alloc: Global,
    words: &[&str],
    store: S,
) -> Result<Ran<S>, Fail> {
    run_over(
        rt,
        alloc,
        words,
        store,
        MemSink::new(alloc),
        MemSink::new(alloc),
    )
}

/// Looks at the status, and at what both sinks got.
pub fn ends<S: Store + Drop>(
    rt: &impl Abort,
    ran: &Ran<S>,
    status: Status,
    out: &[u8],
    err: &[u8],
) {
    assert_eq!(rt; ran.status, status);
    assert_eq!(rt; ran.out.bytes(), out);
    assert_eq!(rt; ran.err.bytes(), err);
}

/// Looks that the store holds these bytes under a name.
pub fn holds(rt: &impl Abort, ran: &Ran<MemStore>, name: &str, want: &[u8]) {
    assert_eq!(rt; ran.store.file(name), Some(want), "{name}");
}

/// Looks that the store has no file of a name.
pub fn lacks(rt: &impl Abort, ran: &Ran<MemStore>, name: &str) {
    assert!(rt; ran.store.file(name).is_none(), "{name}");
}
