// Two components side by side, each in a context of its own: processors make their calls, and are
// about both first ones at once.
use super::samples::in_record;
use cy_msg::Text;
use cy_run::{Gate, OpenGate};
use cy_store::{MemSink, MemStore, Store};
use cy_table::Hold;
use cyber_cli::{Status, cyber};
use std::alloc::Global;
use std::sync::Wait;
use std::sync::atomic::{AtomicBool, AtomicU64, Ordering};
use std::test::Fail;
use std::thread;
use std::thread::Threads;

/// The DAG file: `p` and `q` read /a.
const DAG: &[u8] = b"module_config {\n  module_library: \"x\"\n\
    \x20 components {\n    class_name: \"PassComponent\"\n\
    \x20   config { name: \"p\" config_file_path: \"p.conf\" readers { channel: \"/a\" } }\n  }\n\
    \x20 components {\n    class_name: \"PassComponent\"\n\
    \x20   config { name: \"q\" config_file_path: \"q.conf\" readers { channel: \"/a\" } }\n  }\n\
    }\n";

/// The scheduler file: each of them has a processor.
const SCHED: &[u8] = b"scheduler_conf {\n  policy: \"choreography\"\n\
    \x20 choreography_conf {\n    choreography_processor_num: 2\n\
    \x20   tasks { name: \"p\" processor: 0 }\n    tasks { name: \"q\" processor: 1 }\n\
    \x20 }\n}\n";

/// The words of a play on threads, and of a serial one.
const PLAY: &str = "play --dag d.dag --record a.rec --out out.rec --trace t.txt --sched s.sched";

const SERIAL_PLAY: &str =
    "play --dag d.dag --record a.rec --out out.rec --trace t.txt --sched s.sched --serial";

/// The words that verify what a play wrote.
const VERIFY: &str = "verify --dag d.dag --record a.rec --out out.rec --trace t.txt";

/// How often a first call looks for the other one.
const LOOKS: u32 = 10_000_000;

// A gate that counts the calls of the components 0 and 1 which pass it: those that processors make.
#[derive(Drop)]
struct CountGate {
    passed: [AtomicU64; 2],
}

impl Gate for CountGate {
    fn before_call<R: Wait>(&self, _rt: &R, component: u32, _call: u32, _hold: &Hold) {
        self.passed[component as usize].fetch_add(1, Ordering::SeqCst);
    }
}

// A gate at which the first calls of the components 0 and 1 show themselves, and wait for each
// other for so many looks. Where both have met the other, both were in hand at once, since the one
// that came first was still there when the second showed itself.
#[derive(Drop)]
struct BothGate {
    came: [AtomicBool; 2],
    met: [AtomicBool; 2],
}

impl Gate for BothGate {
    fn before_call<R: Wait>(&self, _rt: &R, component: u32, call: u32, _hold: &Hold) {
        if call != 1 {
            return;
        }
        let own = component as usize;
        self.came[own].store(true, Ordering::SeqCst);
        for _ in 0..LOOKS {
            if self.came[1 - own].load(Ordering::SeqCst) {
                self.met[own].store(true, Ordering::SeqCst);
                return;
            }
            thread::yield_now();
        }
    }
}

// A store in memory that holds all files of the two components.
fn pair_store(alloc: Global) -> Result<MemStore, Fail> {
    let record = in_record(alloc)?;
    let mut store = MemStore::new(alloc);
    for (name, bytes) in [
        ("d.dag", DAG),
        ("p.conf", b"out: \"/p\"\n".as_slice()),
        ("q.conf", b"out: \"/q\"\n".as_slice()),
        ("s.sched", SCHED),
        ("a.rec", record.as_slice()),
    ] {
        store.create(name)?;
        store.put_at(name, 0, bytes)?;
    }
    Ok(store)
}

// The words of a line.
fn words_of(alloc: Global, line: &str) -> Result<Vec<Text>, Fail> {
    let mut words = Vec::new(alloc);
    for word in line.split(' ') {
        words.push(Text::new(alloc, word)?)?;
    }
    Ok(words)
}

// Whether the program does what a line asks, over a store, and prints this line alone.
fn prints<G: Gate, R: Threads + Wait + Sync>(
    rt: &R,
    alloc: Global,
    store: &mut MemStore,
    line: &str,
    gate: &G,
    printed: &[u8],
) -> Result<bool, Fail> {
    let words = words_of(alloc, line)?;
    let mut out = MemSink::new(alloc);
    let mut err = MemSink::new(alloc);
    let status = cyber(rt, alloc, &words, store, &mut out, &mut err, gate);
    Ok(status == Status::Done && out.bytes() == printed && err.bytes().is_empty())
}

// Plays the one message through the two components, and whether that was done as asked and what it
// wrote is lawful.
fn plays<G: Gate, R: Threads + Wait + Sync>(
    rt: &R,
    alloc: Global,
    line: &str,
    gate: &G,
) -> Result<bool, Fail> {
    let mut store = pair_store(alloc)?;
    let done = b"done: played 1, shadowed 0, calls 2, written 3\n".as_slice();
    let lawful = b"lawful: played 1, shadowed 0, calls 2, written 3\n".as_slice();
    Ok(
        prints(rt, alloc, &mut store, line, gate, done)?
            && prints(rt, alloc, &mut store, VERIFY, &OpenGate, lawful)?,
    )
}

#[test]
fn makes_the_calls_of_each_component_on_its_processor(rt: HostRuntime) -> Result<(), Fail> {
    for _ in 0..20usize {
        for (line, want) in [(PLAY, [1, 1]), (SERIAL_PLAY, [0, 0])] {
            let gate = CountGate {
                passed: [AtomicU64::new(0), AtomicU64::new(0)],
            };
            assert!(rt; plays(&rt, rt.alloc(), line, &gate)?);
            let [first, second] = &gate.passed;
            let passed = [first.load(Ordering::SeqCst), second.load(Ordering::SeqCst)];
            assert_eq!(rt; passed, want, "{line}");
        }
    }
    Ok(())
}

#[test]
fn has_the_first_calls_of_both_in_hand_at_once(rt: HostRuntime) -> Result<(), Fail> {
    let gate = BothGate {
        came: [AtomicBool::new(false), AtomicBool::new(false)],
        met: [AtomicBool::new(false), AtomicBool::new(false)],
    };
    assert!(rt; plays(&rt, rt.alloc(), PLAY, &gate)?);
    let [first, second] = &gate.met;
    assert!(rt; first.load(Ordering::SeqCst) && second.load(Ordering::SeqCst));
    Ok(())
}
