// Runs with a forced stop: the texts of the traces of serial runs, as the rules give them, and what
// the stopped component does on threads.
use super::played::{Message, counts, list, placed};
use super::wired::wiring;
use cy_comp::{Kind, State};
use cy_msg::{PlayList, Stop};
use cy_run::{OpenGate, run_threads};
use cy_trace_text::trace_text;
use std::str;
use std::sync::Wait;
use std::test::Fail;
use std::thread::Threads;
use wake_core::{World, serial};

// Messages at the times 1 to 4, with these values.
const FOUR: &[Message] = &[
    (0, 1, Some(1)),
    (0, 2, Some(2)),
    (0, 3, Some(3)),
    (0, 4, Some(4)),
];

// A run of one component, which is stopped after so many messages; and the text of its trace.
#[derive(Drop)]
struct Run<'a> {
    kind: Kind,
    messages: &'a [Message],
    after: u32,
    trace: &'a str,
}

// The trace of the serial run.
fn traced(rt: &HostRuntime, run: &Run) -> Result<String, Fail> {
    let wiring = wiring(rt, &["/a", "/o"], &[(run.kind.copy()?, &[0])])?;
    let list = list(rt, run.messages)?;
    let counts = counts(rt, wiring.names.count(), list.tokens.as_slice())?;
    let mut world = World::new(rt.alloc(), &wiring, &counts, stop_after(run.after))?;
    serial(&mut world, &list, &placed(rt, 1, false)?);
    let text = trace_text(rt.alloc(), &world, &wiring, list.shadowed)?;
    Ok(str::from_utf8(text.as_slice())?.to_string(rt.alloc())?)
}

fn stop_after(after: u32) -> Option<Stop> {
    Some(Stop {
        component: 0,
        after,
    })
}

#[test]
fn plays_worked_examples_with_a_stop(rt: HostRuntime) -> Result<(), Fail> {
    for run in [
        // Ends at the message behind the stop.
        Run {
            kind: Kind::Pass,
            messages: FOUR,
            after: 2,
            trace: r#"cyber-trace 1
played 4 shadowed 0
component "a"
roles 0000
call 1/1 1 1@1=1
call 2/2 2 2@2=2
end FINISHED next 3
tape "/a" 1
tape "/o" 1
tape "/a" 2
tape "/o" 2
tape "/a" 3
tape "/a" 4
"#,
        },
        // Raised behind all messages, which wakes nobody.
        Run {
            kind: Kind::Pass,
            messages: FOUR,
            after: 4,
            trace: r#"cyber-trace 1
played 4 shadowed 0
component "a"
roles 0000
call 1/1 1 1@1=1
call 2/2 2 2@2=2
call 3/3 3 3@3=3
call 4/4 4 4@4=4
end DATA_WAIT next 5
tape "/a" 1
tape "/o" 1
tape "/a" 2
tape "/o" 2
tape "/a" 3
tape "/o" 3
tape "/a" 4
tape "/o" 4
"#,
        },
        // Raised before all, so that nothing is called.
        Run {
            kind: Kind::Pass,
            messages: FOUR,
            after: 0,
            trace: r#"cyber-trace 1
played 4 shadowed 0
component "a"
roles 0000
end FINISHED next 0
tape "/a" 1
tape "/a" 2
tape "/a" 3
tape "/a" 4
"#,
        },
        // Sends what is held back, and ends then.
        Run {
            kind: Kind::Hold { delay: 100 },
            messages: &[
                (0, 10, Some(0)),
                (0, 11, Some(1)),
                (0, 12, Some(2)),
                (0, 13, Some(3)),
                (0, 14, Some(4)),
                (0, 15, Some(5)),
            ],
            after: 3,
            trace: r#"cyber-trace 1
played 6 shadowed 0
component "a"
roles 000000
call 1/1 1 1@110=0
end FINISHED next 2
tape "/a" 1
tape "/a" 2
tape "/a" 3
tape "/a" 4
tape "/a" 5
tape "/a" 6
tape "/o" 1
"#,
        },
    ] {
        let text = traced(&rt, &run)?;
        assert_eq!(rt; text.as_str(), run.trace);
    }
    Ok(())
}

// Whether a component that is stopped after so many messages ends on threads, and how many calls it
// makes.
fn stopped_calls<R: Threads + Wait + Sync>(
    rt: &R,
    host: &HostRuntime,
    list: &PlayList,
    after: u32,
) -> Result<(bool, u32), Fail> {
    let wiring = wiring(host, &["/a", "/o"], &[(Kind::Pass, &[0])])?;
    let counts = counts(host, wiring.names.count(), list.tokens.as_slice())?;
    let world = World::new(host.alloc(), &wiring, &counts, stop_after(after))?;
    let placement = placed(host, 1, false)?;
    let world = run_threads(rt, host.alloc(), world, &wiring, list, &placement, &OpenGate)?;
    let routine = world.routine(0);
    let ended = matches!(routine.state(), State::Finished);
    Ok((ended, routine.calls().len() as u32))
}

// One call may be under way while the stop is raised.
#[test]
fn ends_a_stopped_component_on_threads(rt: HostRuntime) -> Result<(), Fail> {
    let list = list(&rt, FOUR)?;
    for after in 0..4 {
        let (ended, calls) = stopped_calls(&rt, &rt, &list, after)?;
        assert!(rt; ended && calls <= after + 1, "{after} {ended} {calls}");
    }
    Ok(())
}
