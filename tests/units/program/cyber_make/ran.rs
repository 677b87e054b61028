// A run of the program in memory.
use cy_msg::Text;
use cy_store::{MemSink, MemStore};
use cyber_cli::{Status, cyber_still};
use std::alloc::Global;
use std::test::Fail;
use std::thread::Threads;

/// What the program answered, and what it left.
#[derive(Drop)]
pub struct Ran {
    pub status: Status,
    pub store: MemStore,
    pub out: MemSink,
    pub err: MemSink,
}

/// Runs the program with these words over this store and this sink of what was done.
pub fn run(
    rt: &(impl Threads + Sync),
    alloc: Global,
    words: &[&str],
    store: MemStore,
    out: MemSink,
) -> Result<Ran, Fail> {
    let mut texts = Vec::new(alloc);
    for word in words {
        texts.push(Text::new(alloc, word)?)?;
    }
    let mut ran = Ran {
        status: Status::Limit,
        store,
        out,
        err: MemSink::new(alloc),
    };
    ran.status = cyber_still(rt, alloc, &texts, &mut ran.store, &mut ran.out, &mut ran.err);
    Ok(ran)
}
