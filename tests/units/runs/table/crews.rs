// The parts of a run on threads: the work of one processor, and a drive of a list beside a worker.
use super::doors::message;
use super::scans::context_of_one;
use super::tables::{pass_wiring, table_of_one};
use super::walk::play;
use cy_comp::State;
use cy_msg::{Items, PlayList, Token};
use cy_run::{Idle, OpenGate, Worker, drive, work};
use std::process::Abort;
use std::test::Fail;
use wake_core::World;

// The only message was passed on by one call, and then the component found nothing and waits.
fn is_passed_on(rt: &impl Abort, world: &World) {
    let passed = Token {
        channel: 1,
        ..message()
    };
    assert_eq!(rt; world.tape_list(), [message(), passed].as_slice());
    let calls = world.routine(0).calls();
    assert!(rt; calls.map(|call| (call.position, call.tail)).eq([(1, 1)]));
    assert_eq!(rt; world.routine(0).state(), State::DataWait);
    assert_eq!(rt; (world.played(), world.clock()), (1, u64::MAX));
    assert!(rt; world.closing());
}

// All was played, and the run is closing, when the processor comes.
#[test]
fn works_on_what_was_played_and_ends(rt: HostRuntime) -> Result<(), Fail> {
    let context = context_of_one(&rt)?;
    let wiring = pass_wiring(&rt, 1)?;
    let idle = Idle::new(rt.alloc(), 1)?;
    let (table, mut player) = table_of_one(&rt, 1)?;
    let mut other = table.split(&mut player)?;
    play(&rt, &table, &mut player, message());
    table.tick(&mut player, u64::MAX);
    table.set_closing(&mut player);
    work(
        &rt, &table, &mut other, &context, &idle, 0, &wiring, &OpenGate,
    );
    table.join(&mut player, other);
    let world = table.close(rt.alloc(), player)?;
    is_passed_on(&rt, &world);
    Ok(())
}

// A worker ends only once a scan behind the closing was in vain, so it makes the call.
#[test]
fn drives_a_list_beside_a_worker(rt: HostRuntime) -> Result<(), Fail> {
    let contexts = vec![in rt.alloc(); context_of_one(&rt)?]?;
    let wiring = pass_wiring(&rt, 1)?;
    let idle = Idle::new(rt.alloc(), 1)?;
    let list = PlayList {
        tokens: Items::new(vec![in rt.alloc(); message()]?),
        places: Items::new(vec![in rt.alloc(); 0]?),
        shadowed: 0,
    };
    let (table, mut player) = table_of_one(&rt, 1)?;
    let pass = table.split(&mut player)?;
    let mut crew = vec![in rt.alloc();
        Worker {
            pass,
            plan: 0,
            me: 0
        },
    ]?;
    drive(
        &rt,
        &table,
        &mut player,
        crew.as_mut_slice(),
        contexts.as_slice(),
        &idle,
        &wiring,
        &list,
        &OpenGate,
        None,
    );
    for worker in crew {
        table.join(&mut player, worker.pass);
    }
    let world = table.close(rt.alloc(), player)?;
    is_passed_on(&rt, &world);
    Ok(())
}
