// Runs on threads: whether the calls of two components overlap, and that threads make the calls.
use super::played::{counts, crowded, list, pinned, placed};
use super::wired::wiring;
use cy_comp::{Kind, Wiring};
use cy_msg::{Placement, PlayList};
use cy_run::{Gate, MeetGate, OpenGate, PairGate, run_threads};
use cy_table::Hold;
use std::sync::Wait;
use std::sync::atomic::{AtomicU64, Ordering};
use std::test::Fail;
use std::thread::Threads;
use wake_core::World;

// A gate that counts the calls of components 0 and 1 which pass it, before another gate: those that
// processors make, and not those that are left for the end of a run.
#[derive(Drop)]
struct CountGate<G> {
    of_first: AtomicU64,
    of_second: AtomicU64,
    then: G,
}

impl<G: Gate> CountGate<G> {
    fn before(then: G) -> Self {
        CountGate {
            of_first: AtomicU64::new(0),
            of_second: AtomicU64::new(0),
            then,
        }
    }

    // How many calls of each component passed.
    fn passed(&self) -> [u64; 2] {
        [
            self.of_first.load(Ordering::SeqCst),
            self.of_second.load(Ordering::SeqCst),
        ]
    }
}

impl<G: Gate> Gate for CountGate<G> {
    fn before_call<R: Wait>(&self, rt: &R, component: u32, call: u32, hold: &Hold) {
        let passed = match component {
            0 => &self.of_first,
            _ => &self.of_second,
        };
        passed.fetch_add(1, Ordering::SeqCst);
        self.then.before_call(rt, component, call, hold);
    }
}

// The world after a list was played on threads.
fn played<G: Gate, R: Threads + Wait + Sync>(
    rt: &R,
    host: &HostRuntime,
    wiring: &Wiring,
    list: &PlayList,
    placement: &Placement,
    gate: &G,
) -> Result<World, Fail> {
    let counts = counts(host, wiring.names.count(), list.tokens.as_slice())?;
    let world = World::new(host.alloc(), wiring, &counts, None)?;
    Ok(run_threads(rt, host.alloc(), world, wiring, list, placement, gate)?)
}

// How many calls the two components of a world have.
fn calls_of_two(world: &World) -> [u64; 2] {
    [
        world.routine(0).calls().len() as u64,
        world.routine(1).calls().len() as u64,
    ]
}

#[test]
fn overlaps_the_calls_of_two_components(rt: HostRuntime) -> Result<(), Fail> {
    let wiring = wiring(
        &rt,
        &["/a", "/o", "/p"],
        &[(Kind::Pass, &[0]), (Kind::Pass, &[0])],
    )?;
    let list = list(&rt, &[(0, 1, Some(1))])?;
    let gate = MeetGate::new(0, 1, 10_000_000);
    let world = played(&rt, &rt, &wiring, &list, &pinned(&rt)?, &gate)?;
    assert!(rt; gate.met());
    assert_eq!(rt; calls_of_two(&world), [1, 1]);
    Ok(())
}

// How many calls two components have that one message triggers, and whether these were in hand at
// once.
fn paired_calls<R: Threads + Wait + Sync>(
    rt: &R,
    host: &HostRuntime,
    placement: &Placement,
    turns: u32,
) -> Result<([u64; 2], bool), Fail> {
    let wiring = wiring(
        host,
        &["/a", "/o", "/p"],
        &[(Kind::Pass, &[0]), (Kind::Pass, &[0])],
    )?;
    let list = list(host, &[(0, 1, Some(1))])?;
    let gate = PairGate::new(0, 1, turns);
    let world = played(rt, host, &wiring, &list, placement, &gate)?;
    Ok((calls_of_two(&world), gate.paired()))
}

#[test]
fn has_two_calls_in_hand_at_once_on_two_processors_alone(rt: HostRuntime) -> Result<(), Fail> {
    assert_eq!(rt;
        paired_calls(&rt, &rt, &pinned(&rt)?, 10_000_000)?,
        ([1, 1], true)
    );
    assert_eq!(rt;
        paired_calls(&rt, &rt, &placed(&rt, 2, false)?, 1_000)?,
        ([1, 1], false)
    );
    Ok(())
}

#[test]
fn makes_all_calls_of_one_context_on_its_processor(rt: HostRuntime) -> Result<(), Fail> {
    let wiring = wiring(
        &rt,
        &["/a", "/b", "/c"],
        &[(Kind::Pass, &[0]), (Kind::Pass, &[1])],
    )?;
    let messages = [
        (0, 1, Some(1)),
        (0, 2, Some(2)),
        (0, 3, Some(3)),
        (0, 4, Some(4)),
    ];
    let list = list(&rt, &messages)?;
    let gate = CountGate::before(OpenGate);
    let world = played(&rt, &rt, &wiring, &list, &placed(&rt, 2, false)?, &gate)?;
    let calls = calls_of_two(&world);
    assert!(rt; calls[0] >= 1 && calls[1] >= 1);
    assert_eq!(rt; gate.passed(), calls);
    Ok(())
}

// The player waits for the processors, so that these make most of the calls, and skip little of a
// list that would else be over before they run. A processor that comes late misses its beginning.
#[test]
fn plays_at_the_pace_of_the_processors(rt: HostRuntime) -> Result<(), Fail> {
    let wiring = wiring(
        &rt,
        &["/a", "/o", "/z"],
        &[(Kind::Pass, &[0]), (Kind::Pass, &[1])],
    )?;
    let mut messages = Vec::new(rt.alloc());
    for time in 0..1000u64 {
        messages.push((0, time, Some(1)))?;
    }
    let list = list(&rt, &messages)?;
    let gate = CountGate::before(OpenGate);
    let world = played(&rt, &rt, &wiring, &list, &pinned(&rt)?, &gate)?;
    let calls = calls_of_two(&world);
    let passed = gate.passed();
    assert!(rt;
        passed[0] >= 500 && passed[1] >= 500,
        "{} {}",
        passed[0],
        passed[1]
    );
    assert!(rt; passed[0] <= calls[0] && passed[1] <= calls[1]);
    Ok(())
}

// Each of many processors gets a thread, but for the last of 64: the player's thread makes the calls
// of the component that is left to it. All calls are made in the run, and hardly one is skipped.
#[test]
fn serves_each_context_of_many_processors(rt: HostRuntime) -> Result<(), Fail> {
    let wiring = wiring(
        &rt,
        &["/a", "/o", "/z"],
        &[(Kind::Pass, &[0]), (Kind::Pass, &[1])],
    )?;
    let mut messages = Vec::new(rt.alloc());
    for time in 0..100u64 {
        messages.push((0, time, Some(1)))?;
    }
    let list = list(&rt, &messages)?;
    for processors in [32, 62, 63] {
        let gate = CountGate::before(OpenGate);
        let placement = crowded(&rt, processors)?;
        let world = played(&rt, &rt, &wiring, &list, &placement, &gate)?;
        let calls = calls_of_two(&world);
        let passed = gate.passed();
        assert!(rt;
            calls[1] >= 80 && passed[1] >= 80,
            "{processors}: {} {}",
            calls[1],
            passed[1]
        );
    }
    Ok(())
}

// What playing one message comes to where a component passes it on to another: how many calls the
// components have, how many of them processors made, and whether these overlapped. They never do,
// since the second component is called on what the call of the first put out.
fn chain_calls<R: Threads + Wait + Sync>(
    rt: &R,
    host: &HostRuntime,
    placement: &Placement,
) -> Result<([u64; 2], [u64; 2], bool), Fail> {
    let wiring = wiring(
        host,
        &["/a", "/o", "/z"],
        &[(Kind::Pass, &[0]), (Kind::Pass, &[1])],
    )?;
    let list = list(host, &[(0, 1, Some(1))])?;
    let gate = CountGate::before(MeetGate::new(0, 1, 10));
    let world = played(rt, host, &wiring, &list, placement, &gate)?;
    Ok((calls_of_two(&world), gate.passed(), gate.then.met()))
}

#[test]
fn overlaps_no_calls_of_one_processor(rt: HostRuntime) -> Result<(), Fail> {
    assert_eq!(rt;
        chain_calls(&rt, &rt, &placed(&rt, 2, false)?)?,
        ([1, 1], [1, 1], false)
    );
    Ok(())
}

// The processor of the first component makes its call. That of the second may have ended by then,
// and leave that call for the end of the run.
#[test]
fn makes_the_call_on_a_played_message_on_a_processor(rt: HostRuntime) -> Result<(), Fail> {
    let (calls, passed, met) = chain_calls(&rt, &rt, &pinned(&rt)?)?;
    assert_eq!(rt; calls, [1, 1]);
    assert_eq!(rt; passed[0], 1);
    assert!(rt; passed[1] <= 1);
    assert!(rt; !met);
    Ok(())
}
