// Routines over visitors.
use super::messages::message;
use cy_comp::{CallSummary, Kind, Out, Outcome, Routine, State, TupleSeqs};
use cy_fuse::{Overflow, Visitor};
use cy_msg::Token;
use std::test::Fail;

// What is to be kept of a call.
fn call(position: u64, tail: u64, of: Token, time: u64) -> CallSummary {
    CallSummary {
        position,
        tail,
        seqs: TupleSeqs::One(of.seq),
        out: Some(Out {
            time,
            whole: of.whole,
            origin: of.origin,
        }),
    }
}

// Asks for a message, fetches one and calls the component on it.
fn resume(routine: &mut Routine, visitor: &Visitor) -> Result<Outcome, Fail> {
    routine.ask();
    let Some((tuple, position, tail)) = visitor.try_fetch(&mut routine.cursor()) else {
        return Err(Fail::from("something is found"));
    };
    Ok(routine.took(tuple, position, tail))
}

// Sends the output that waits.
fn send(routine: &mut Routine) -> Result<(), Fail> {
    if routine.pending().is_none() {
        return Err(Fail::from("an output waits"));
    }
    routine.sent();
    Ok(())
}

#[test]
fn skips_a_burst_while_an_output_is_held(rt: HostRuntime) -> Result<(), Fail> {
    let first = message(0, 1, 10, Some(0));
    let last = message(0, 6, 15, Some(5));
    let mut visitor = Visitor::prepare(rt.alloc(), 1, 1, Overflow::Newest, 6)?;
    let mut routine = Routine::new(rt.alloc(), &Kind::Hold { delay: 100 }, 2)?;
    assert_eq!(rt;
        (routine.state(), routine.cursor().next()),
        (State::Ready, 0)
    );
    visitor.arrive(0, first);
    let outcome = resume(&mut routine, &visitor)?;
    assert!(rt; matches!(&outcome, Outcome::Hold { until: 110, .. }));
    routine.yielded(State::Sleep { until: 110 });
    visitor.arrive(0, message(0, 2, 11, Some(1)));
    visitor.arrive(0, message(0, 3, 12, Some(2)));
    visitor.arrive(0, message(0, 4, 13, Some(3)));
    visitor.arrive(0, message(0, 5, 14, Some(4)));
    visitor.arrive(0, last);
    assert_eq!(rt; routine.state(), State::Sleep { until: 110 });
    assert_eq!(rt; routine.pending(), call(1, 1, first, 110).out);
    send(&mut routine)?;
    routine.yielded(State::Ready);
    let outcome = resume(&mut routine, &visitor)?;
    assert!(rt; matches!(&outcome, Outcome::Hold { until: 115, .. }));
    assert_eq!(rt; routine.state(), State::DataWait);
    send(&mut routine)?;
    assert_eq!(rt; visitor.try_fetch(&mut routine.cursor()), None);
    let calls = [call(1, 1, first, 110), call(6, 6, last, 115)];
    assert!(rt; routine.calls().eq(calls));
    assert_eq!(rt; (routine.cursor().next(), routine.pending()), (7, None));
    Ok(())
}

#[test]
fn finishes_after_two_of_five(rt: HostRuntime) -> Result<(), Fail> {
    let mut visitor = Visitor::prepare(rt.alloc(), 1, 1, Overflow::Newest, 5)?;
    let mut routine = Routine::new(rt.alloc(), &Kind::Take { n: 2 }, 5)?;
    visitor.arrive(0, message(0, 1, 1, Some(9)));
    let outcome = resume(&mut routine, &visitor)?;
    assert!(rt; matches!(&outcome, Outcome::Emit(_)));
    send(&mut routine)?;
    routine.yielded(State::Ready);
    visitor.arrive(0, message(0, 2, 2, Some(9)));
    let outcome = resume(&mut routine, &visitor)?;
    assert!(rt; matches!(&outcome, Outcome::Last(_)));
    send(&mut routine)?;
    routine.yielded(State::Finished);
    visitor.arrive(0, message(0, 3, 3, Some(9)));
    visitor.arrive(0, message(0, 4, 4, Some(9)));
    visitor.arrive(0, message(0, 5, 5, Some(9)));
    let calls = [
        call(1, 1, message(0, 1, 1, Some(9)), 1),
        call(2, 2, message(0, 2, 2, Some(9)), 2),
    ];
    assert!(rt; routine.calls().eq(calls));
    assert_eq!(rt;
        (routine.state(), routine.cursor().next()),
        (State::Finished, 3)
    );
    assert_eq!(rt; visitor.arrival_count(), 5);
    Ok(())
}

#[test]
fn sums_what_was_fused(rt: HostRuntime) -> Result<(), Fail> {
    let mut visitor = Visitor::prepare(rt.alloc(), 1, 2, Overflow::Newest, 4)?;
    let mut routine = Routine::new(rt.alloc(), &Kind::Sum, 2)?;
    visitor.arrive(1, message(1, 1, 1, Some(10)));
    visitor.arrive(0, message(0, 1, 2, Some(1)));
    let first = resume(&mut routine, &visitor)?;
    send(&mut routine)?;
    visitor.arrive(1, message(1, 2, 3, Some(20)));
    visitor.arrive(0, message(0, 2, 4, Some(2)));
    let second = resume(&mut routine, &visitor)?;
    for (outcome, time, sum) in [(first, 2, 11), (second, 4, 22)] {
        let out = Out {
            time,
            whole: Some(sum),
            origin: None,
        };
        assert_eq!(rt; outcome, Outcome::Emit(Some(out)));
    }
    let placed = routine.calls().map(|call| (call.position, call.tail));
    assert!(rt; placed.eq([(1, 1), (2, 2)]));
    Ok(())
}
