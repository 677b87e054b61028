// Plays of the chain in memory.
use super::samples::{DAG, FIRST_CONFIG, SECOND_CONFIG, in_record};
use cy_msg::Text;
use cy_run::Gate;
use cy_store::{MemSink, MemStore, Store};
use cy_table::Hold;
use cyber_cli::{Status, cyber, cyber_still};
use std::alloc::Global;
use std::sync::Wait;
use std::sync::atomic::{AtomicU64, Ordering};
use std::test::Fail;
use std::thread::Threads;

/// The words of a play on threads, and of a serial one.
const PLAY: &str = "play --dag d.dag --record a.rec --out out.rec --trace t.txt";

pub const SERIAL_PLAY: &str =
    "play --serial --dag d.dag --record a.rec --out out.rec --trace t.txt";

// A gate that counts the calls which pass it: those that processors make, and not those that are
// left for the end of a run.
#[derive(Drop)]
struct CountGate {
    passed: AtomicU64,
}

impl Gate for CountGate {
    fn before_call<R: Wait>(&self, _rt: &R, _component: u32, _call: u32, _hold: &Hold) {
        self.passed.fetch_add(1, Ordering::SeqCst);
    }
}

/// What the program answered, what it left, and how many calls processors made.
#[derive(Drop)]
pub struct Ran {
    pub status: Status,
    pub store: MemStore,
    pub out: MemSink,
    pub err: MemSink,
    pub by_processors: u64,
}

/// A store in memory that holds the files of the chain, after eight calls.
pub fn chain_store(alloc: Global) -> Result<MemStore, Fail> {
    let record = in_record(alloc)?;
    let mut store = MemStore::new(alloc);
    for (name, bytes) in [
        ("d.dag", DAG),
        ("p.conf", FIRST_CONFIG),
        ("r.conf", SECOND_CONFIG),
        ("a.rec", record.as_slice()),
    ] {
        store.create(name)?;
        store.put_at(name, 0, bytes)?;
    }
    Ok(store)
}

// The words of a line.
fn words_of(alloc: Global, line: &str) -> Result<Vec<Text>, Fail> {
    let mut words = Vec::new(alloc);
    for word in line.split(' ') {
        words.push(Text::new(alloc, word)?)?;
    }
    Ok(words)
}

// Nothing was run yet, over this store and this sink of what was done.
fn before(alloc: Global, store: MemStore, out: MemSink) -> Ran {
    Ran {
        status: Status::Limit,
        store,
        out,
        err: MemSink::new(alloc),
        by_processors: 0,
    }
}

/// Plays the chain serially over this store and this sink of what was done.
pub fn play(
    rt: &(impl Threads + Sync),
    alloc: Global,
    store: MemStore,
    out: MemSink,
) -> Result<Ran, Fail> {
    let words = words_of(alloc, SERIAL_PLAY)?;
    let mut ran = before(alloc, store, out);
    ran.status = cyber_still(rt, alloc, &words, &mut ran.store, &mut ran.out, &mut ran.err);
    Ok(ran)
}

/// Asks for a play on threads where there are none.
pub fn play_still(rt: &(impl Threads + Sync), alloc: Global) -> Result<Ran, Fail> {
    let words = words_of(alloc, PLAY)?;
    let mut ran = before(alloc, chain_store(alloc)?, MemSink::new(alloc));
    ran.status = cyber_still(rt, alloc, &words, &mut ran.store, &mut ran.out, &mut ran.err);
    Ok(ran)
}

/// Plays the chain over this store with threads, or serially where there are threads.
pub fn play_with_threads<R: Threads + Wait + Sync>(
    rt: &R,
    alloc: Global,
    store: MemStore,
    serial: bool,
) -> Result<Ran, Fail> {
    let words = words_of(alloc, if serial { SERIAL_PLAY } else { PLAY })?;
    let mut ran = before(alloc, store, MemSink::new(alloc));
    let gate = CountGate {
        passed: AtomicU64::new(0),
    };
    ran.status = cyber(
        rt,
        alloc,
        &words,
        &mut ran.store,
        &mut ran.out,
        &mut ran.err,
        &gate,
    );
    ran.by_processors = gate.passed.load(Ordering::SeqCst);
    Ok(ran)
}
