// Worked lists of events, and random lists of those that may happen.
use super::driven::{Driven, Event, Row, holds};
use cy_comp::{Kind, State, TupleSeqs};
use cy_msg::{Stop, Token};
use std::test::Fail;

// How many random lists are driven, and how many events each has at most.
const LISTS: u32 = 1000;
const EVENTS: u32 = 120;
// The threads, the player among them.
const THREADS: u32 = 3;

// Lets some events of a thread happen, in order.
fn drive(driven: &mut Driven, thread: u32, events: &[Event]) -> Result<(), Fail> {
    for event in events {
        driven.happen(thread, *event)?;
        driven.check()?;
    }
    Ok(())
}

// The player sends the next message.
fn tape(driven: &mut Driven) -> Result<(), Fail> {
    let token = driven.list[driven.next];
    drive(driven, 0, &[Event::Tape(token)])
}

// The player fills the first reader of component 0 and looks at its state. Whether it waited.
fn tell(driven: &mut Driven) -> Result<bool, Fail> {
    let token = driven.list[driven.next - 1];
    drive(driven, 0, &[Event::Fill(0, 0, token)])?;
    let waited = driven.state(0) == State::DataWait;
    drive(driven, 0, &[Event::Look(0)])?;
    Ok(waited)
}

// A component that passes messages on, with so many of them at time 0; it keeps `queue` tuples.
fn passing(rt: &HostRuntime, queue: u32, messages: usize) -> Result<Driven, Fail> {
    passing_until(rt, queue, messages, None)
}

// The same with a stop or none.
fn passing_until(
    rt: &HostRuntime,
    queue: u32,
    messages: usize,
    stop: Option<Stop>,
) -> Result<Driven, Fail> {
    let list = [(0, 0, 1), (0, 0, 2), (0, 0, 3), (0, 0, 4)];
    Driven::new(
        rt,
        &["/a", "/o"],
        &[(Kind::Pass, &[0], queue, 1)],
        &list[..messages],
        stop,
    )
}

// Lets thread 1 take component 0, which is READY, and call it on the message that it finds.
fn call(driven: &mut Driven) -> Result<(), Fail> {
    use Event::{Acquire, Ask, Check, Fetch, Release, Send, Spend, Step, Yield};
    drive(driven, 1, &[Acquire(0), Spend, Check, Ask, Fetch, Step])?;
    let Some(out) = driven.world.unsent(0) else {
        return Err(Fail::from("no output"));
    };
    drive(driven, 1, &[Send(out), Yield(State::Ready), Release])
}

// Two messages, of which one was played and passed on; component 0 is held by thread 1, READY.
fn called_once(rt: &HostRuntime) -> Result<Driven, Fail> {
    let mut driven = passing(rt, 1, 2)?;
    tape(&mut driven)?;
    holds(!tell(&mut driven)?, "it is READY")?;
    call(&mut driven)?;
    drive(&mut driven, 1, &[Event::Acquire(0), Event::Spend])?;
    holds(driven.state(0) == State::Ready, "it is READY")?;
    Ok(driven)
}

// The number of the message of component 0's last call.
fn last_message(driven: &Driven) -> Option<u32> {
    match driven.world.routine(0).calls().last()?.seqs {
        TupleSeqs::One(seq) => Some(seq),
        _ => None,
    }
}

#[test]
fn wakes_a_component_that_parks_while_a_message_comes(rt: HostRuntime) -> Result<(), Fail> {
    use Event::{Acquire, Ask, Check, Clear, Fetch, Ready, Release, Spend, Step, Yield};
    let mut driven = called_once(&rt)?;
    drive(&mut driven, 1, &[Check, Ask, Fetch])?;
    tape(&mut driven)?;
    assert!(rt; tell(&mut driven)?);
    drive(&mut driven, 0, &[Clear(0)])?;
    drive(&mut driven, 1, &[Yield(State::DataWait), Release, Acquire(0)])?;
    assert!(rt; !driven.world.spent(0));
    drive(&mut driven, 1, &[Spend, Ready, Check, Ask, Fetch, Step])?;
    assert_eq!(rt; last_message(&driven), Some(2));
    driven.end(&rt, 2)
}

#[test]
fn fetches_what_came_without_being_woken(rt: HostRuntime) -> Result<(), Fail> {
    use Event::{Ask, Check, Fetch, Step};
    let mut driven = called_once(&rt)?;
    tape(&mut driven)?;
    assert!(rt; !tell(&mut driven)?);
    drive(&mut driven, 1, &[Check, Ask, Fetch, Step])?;
    assert_eq!(rt; last_message(&driven), Some(2));
    driven.end(&rt, 2)
}

#[test]
fn skips_to_the_newest_of_four(rt: HostRuntime) -> Result<(), Fail> {
    let mut driven = passing(&rt, 4, 4)?;
    for _ in 0..4 {
        tape(&mut driven)?;
        assert!(rt; !tell(&mut driven)?);
    }
    call(&mut driven)?;
    assert_eq!(rt; last_message(&driven), Some(4));
    driven.end(&rt, 2)?;
    assert_eq!(rt; driven.world.routine(0).calls().len(), 1);
    assert_eq!(rt; driven.world.routine(0).cursor().next(), 5);
    Ok(())
}

#[test]
fn wakes_and_parks_where_nothing_is_joined(rt: HostRuntime) -> Result<(), Fail> {
    use Event::{Acquire, Ask, Check, Clear, Fetch, Ready, Release, Spend, Yield};
    let rows: [Row; 1] = [(Kind::Sum, &[0, 1], 1, 2)];
    let list = [(0, 0, 1), (0, 0, 2)];
    let mut driven = Driven::new(&rt, &["/a", "/b", "/o"], &rows, &list, None)?;
    tape(&mut driven)?;
    assert!(rt; !tell(&mut driven)?);
    let parks = [Check, Ask, Fetch, Yield(State::DataWait), Release];
    drive(&mut driven, 1, &[Acquire(0), Spend])?;
    drive(&mut driven, 1, &parks)?;
    tape(&mut driven)?;
    assert!(rt; tell(&mut driven)?);
    drive(&mut driven, 0, &[Clear(0)])?;
    drive(&mut driven, 1, &[Acquire(0), Spend, Ready])?;
    drive(&mut driven, 1, &parks)?;
    assert_eq!(rt; driven.state(0), State::DataWait);
    assert_eq!(rt; driven.world.routine(0).cursor().next(), 0);
    driven.end(&rt, 2)
}

// The stop comes between the first call and the second message, which wakes nobody by itself.
#[test]
fn ends_a_stopped_component_without_a_call(rt: HostRuntime) -> Result<(), Fail> {
    use Event::{Acquire, Check, Release, Spend, Yield};
    let stop = Stop {
        component: 0,
        after: 1,
    };
    let mut driven = passing_until(&rt, 1, 2, Some(stop))?;
    tape(&mut driven)?;
    tell(&mut driven)?;
    call(&mut driven)?;
    drive(&mut driven, 0, &[Event::Stop])?;
    tape(&mut driven)?;
    tell(&mut driven)?;
    drive(&mut driven, 1, &[Acquire(0), Spend, Check, Yield(State::Finished), Release])?;
    assert_eq!(rt; driven.state(0), State::Finished);
    driven.end(&rt, 2)?;
    assert_eq!(rt; driven.world.routine(0).calls().len(), 1);
    Ok(())
}

// A held output of a stopped component is sent before it ends.
#[test]
fn sends_what_a_stopped_component_holds_back(rt: HostRuntime) -> Result<(), Fail> {
    use Event::{Acquire, Ask, Check, Fetch, Ready, Release, Send, Spend, Step, Tick, Yield};
    let rows: [Row; 1] = [(Kind::Hold { delay: 2 }, &[0], 1, 1)];
    let stop = Stop {
        component: 0,
        after: 1,
    };
    let mut driven = Driven::new(&rt, &["/a", "/o"], &rows, &[(0, 0, 1)], Some(stop))?;
    tape(&mut driven)?;
    tell(&mut driven)?;
    drive(&mut driven, 1, &[Acquire(0), Spend, Check, Ask, Fetch, Step])?;
    drive(&mut driven, 1, &[Yield(State::Sleep { until: 2 }), Release])?;
    drive(&mut driven, 0, &[Event::Stop, Tick(3)])?;
    let Some(out) = driven.world.unsent(0) else {
        return Err(Fail::from("no output"));
    };
    drive(&mut driven, 1, &[Acquire(0), Ready, Check, Send(out), Yield(State::Finished), Release])?;
    assert_eq!(rt; driven.state(0), State::Finished);
    driven.end(&rt, 2)?;
    assert_eq!(rt; driven.world.tape_list().len(), 2);
    Ok(())
}

// The next number of a sequence without a pattern, below a bound.
fn draw(seed: &mut u64, bound: usize) -> usize {
    *seed = seed.wrapping_mul(6364136223846793005).wrapping_add(1442695040888963407);
    ((*seed >> 33) as usize) % bound
}

// Lets a random event happen that may happen, of a random thread.
fn drive_one(
    driven: &mut Driven,
    events: &mut Vec<Event>,
    seed: &mut u64,
) -> Result<(), Fail> {
    events.clear();
    let thread = draw(seed, THREADS as usize) as u32;
    driven.push_left(thread, events)?;
    if thread == 0 {
        driven.push_played(events)?;
    }
    if driven.is_idle(thread) {
        events.push(Event::Acquire(draw(seed, driven.size() as usize) as u32))?;
    }
    if events.is_empty() {
        return Ok(());
    }
    let event = events[draw(seed, events.len())];
    driven.happen(thread, event)?;
    driven.check()
}

// A stop of one of three components, behind any of twelve messages or before them; or none.
fn draw_stop(seed: &mut u64) -> Option<Stop> {
    if draw(seed, 2) == 0 {
        return None;
    }
    Some(Stop {
        component: draw(seed, 3) as u32,
        after: draw(seed, 13) as u32,
    })
}

// Drives a random list of events over three components, and ends the run.
fn drive_list(rt: &HostRuntime, seed: &mut u64) -> Result<u64, Fail> {
    let rows: [Row; 3] = [
        (Kind::Hold { delay: 2 }, &[0], 2, 2),
        (Kind::Sum, &[2, 1], 1, 3),
        (Kind::Take { n: 3 }, &[1], 1, 4),
    ];
    let mut messages = [(0, 0, 0); 12];
    for (place, message) in messages.iter_mut().enumerate() {
        *message = (draw(seed, 2) as u32, place as u64 / 2, place as i64);
    }
    let stop = draw_stop(seed);
    let channels = ["/a", "/b", "/h", "/s", "/t"];
    let mut driven = Driven::new(rt, &channels, &rows, &messages, stop)?;
    let mut events = Vec::new(rt.alloc());
    for _ in 0..EVENTS {
        drive_one(&mut driven, &mut events, seed)?;
    }
    driven.end(rt, THREADS)?;
    Ok(driven.calls)
}

#[test]
fn loses_no_component_and_gives_none_two_holders(rt: HostRuntime) -> Result<(), Fail> {
    let mut seed = 20261127;
    let mut calls = 0;
    for _ in 0..LISTS {
        calls += drive_list(&rt, &mut seed)?;
    }
    assert!(rt; u64::from(LISTS) <= calls, "{calls} calls");
    Ok(())
}
