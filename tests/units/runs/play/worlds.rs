// Serial runs of components of any class, and the texts of their traces, as the rules give them.
use super::played::{Message, counts, list, placed};
use super::wired::{holding, wiring};
use cy_comp::{Kind, State, Wiring};
use cy_fuse::Overflow;
use cy_msg::{Placement, PlayList};
use cy_run::run_serial;
use cy_trace_text::trace_text;
use std::process::Abort;
use std::str;
use std::test::Fail;
use wake_core::{CoreError, World, planned, serial};

// The world after a list was played.
fn played(
    rt: &HostRuntime,
    wiring: &Wiring,
    list: &PlayList,
    placement: &Placement,
) -> Result<World, Fail> {
    let counts = counts(rt, wiring.names.count(), list.tokens.as_slice())?;
    let mut world = World::new(rt.alloc(), wiring, &counts, None)?;
    serial(&mut world, list, placement);
    Ok(world)
}

// The trace of the serial run of some messages.
fn traced(
    rt: &HostRuntime,
    channels: &[&str],
    rows: &[(Kind, &[u32])],
    messages: &[Message],
    backwards: bool,
) -> Result<String, Fail> {
    let wiring = wiring(rt, channels, rows)?;
    let size = wiring.plans.as_slice().len();
    let list = list(rt, messages)?;
    let world = played(rt, &wiring, &list, &placed(rt, size, backwards)?)?;
    let text = trace_text(rt.alloc(), &world, &wiring, list.shadowed)?;
    Ok(str::from_utf8(text.as_slice())?.to_string(rt.alloc())?)
}

// A run: channels, components, and messages; and the text of its trace.
#[derive(Drop)]
struct Run<'a> {
    channels: &'a [&'a str],
    rows: &'a [(Kind, &'a [u32])],
    messages: &'a [Message],
    trace: &'a str,
}

#[test]
fn plays_worked_examples(rt: HostRuntime) -> Result<(), Fail> {
    for run in [
        // Joins the latest message of each other channel.
        Run {
            channels: &["/a", "/b", "/o"],
            rows: &[(Kind::Sum, &[0, 1])],
            messages: &[
                (1, 1, Some(10)),
                (0, 2, Some(1)),
                (1, 3, Some(20)),
                (0, 4, Some(2)),
            ],
            trace: r#"cyber-trace 1
played 4 shadowed 0
component "a"
roles 1010
call 1/1 1 1 1@2=11
call 2/2 2 2 2@4=22
end DATA_WAIT next 3
tape "/b" 1
tape "/a" 1
tape "/o" 1
tape "/b" 2
tape "/a" 2
tape "/o" 2
"#,
        },
        // Waits for a message of each channel.
        Run {
            channels: &["/a", "/b", "/o"],
            rows: &[(Kind::Sum, &[0, 1])],
            messages: &[(0, 1, Some(1)), (0, 2, Some(2))],
            trace: r#"cyber-trace 1
played 2 shadowed 0
component "a"
roles 00
end DATA_WAIT next 0
tape "/a" 1
tape "/a" 2
"#,
        },
        // Sums what fits, and puts nothing out where a value is missing.
        Run {
            channels: &["/a", "/b", "/o"],
            rows: &[(Kind::Sum, &[0, 1])],
            messages: &[(1, 1, Some(1)), (0, 2, Some(i64::MAX)), (0, 3, None)],
            trace: r#"cyber-trace 1
played 3 shadowed 0
component "a"
roles 100
call 1/1 1 1 1@2=9223372036854775807
call 2/2 2 1 -
end DATA_WAIT next 3
tape "/b" 1
tape "/a" 1
tape "/o" 1
tape "/a" 2
"#,
        },
        // Skips a burst while an output is held back.
        Run {
            channels: &["/a", "/o"],
            rows: &[(Kind::Hold { delay: 100 }, &[0])],
            messages: &[
                (0, 10, Some(0)),
                (0, 11, Some(1)),
                (0, 12, Some(2)),
                (0, 13, Some(3)),
                (0, 14, Some(4)),
                (0, 15, Some(5)),
            ],
            trace: r#"cyber-trace 1
played 6 shadowed 0
component "a"
roles 000000
call 1/1 1 1@110=0
call 6/6 6 2@115=5
end DATA_WAIT next 7
tape "/a" 1
tape "/a" 2
tape "/a" 3
tape "/a" 4
tape "/a" 5
tape "/a" 6
tape "/o" 1
tape "/o" 2
"#,
        },
        // Finishes after two of five.
        Run {
            channels: &["/a", "/o"],
            rows: &[(Kind::Take { n: 2 }, &[0])],
            messages: &[
                (0, 1, Some(9)),
                (0, 2, Some(9)),
                (0, 3, Some(9)),
                (0, 4, Some(9)),
                (0, 5, Some(9)),
            ],
            trace: r#"cyber-trace 1
played 5 shadowed 0
component "a"
roles 00000
call 1/1 1 1@1=9
call 2/2 2 2@2=9
end FINISHED next 3
tape "/a" 1
tape "/o" 1
tape "/a" 2
tape "/o" 2
tape "/a" 3
tape "/a" 4
tape "/a" 5
"#,
        },
        // Calls a component on what another one puts out.
        Run {
            channels: &["/a", "/o", "/z"],
            rows: &[(Kind::Pass, &[0]), (Kind::Pass, &[1])],
            messages: &[(0, 1, Some(4))],
            trace: r#"cyber-trace 1
played 1 shadowed 0
component "a"
roles 0
call 1/1 1 1@1=4
end DATA_WAIT next 2
component "b"
roles 0
call 1/1 1 1@1=4
end DATA_WAIT next 2
tape "/a" 1
tape "/o" 1
tape "/z" 1
"#,
        },
        // Selects by the value that triggers.
        Run {
            channels: &["/s", "/p", "/q", "/o"],
            rows: &[(Kind::Select, &[0, 1, 2])],
            messages: &[
                (1, 1, Some(8)),
                (2, 2, Some(9)),
                (0, 3, Some(0)),
                (0, 4, Some(5)),
            ],
            trace: r#"cyber-trace 1
played 4 shadowed 0
component "a"
roles 1200
call 1/1 1 1 1 1@3=8
call 2/2 2 1 1 2@4=9
end DATA_WAIT next 3
tape "/p" 1
tape "/q" 1
tape "/s" 1
tape "/o" 1
tape "/s" 2
tape "/o" 2
"#,
        },
    ] {
        let text = traced(&rt, run.channels, run.rows, run.messages, false)?;
        assert_eq!(rt; text.as_str(), run.trace);
    }
    Ok(())
}

// A burst, while the output that the first message makes is held back.
const BURST: &[Message] = &[
    (0, 10, Some(0)),
    (0, 11, Some(1)),
    (0, 12, Some(2)),
    (0, 13, Some(3)),
    (0, 14, Some(4)),
    (0, 15, Some(5)),
];

// What a trace tells of a component behind its name that holds each of them: it goes on at the
// newest tuple, or at the oldest one of the two that are kept.
const NEWEST: &str = r#"
roles 000000
call 1/1 1 1@110=0
call 6/6 6 2@115=5
end DATA_WAIT next 7
"#;

const OLDEST: &str = r#" overflow OLDEST
roles 000000
call 1/1 1 1@110=0
call 5/6 5 2@114=4
call 6/6 6 3@115=5
end DATA_WAIT next 7
"#;

#[test]
fn goes_on_after_a_burst_as_the_component_asks(rt: HostRuntime) -> Result<(), Fail> {
    let list = list(&rt, BURST)?;
    for (overflows, version, first, second) in [
        (&[Overflow::Newest] as &[Overflow], 1, NEWEST, ""),
        (&[Overflow::Oldest], 2, OLDEST, ""),
        (&[Overflow::Newest, Overflow::Newest], 1, NEWEST, NEWEST),
        (&[Overflow::Oldest, Overflow::Newest], 2, OLDEST, NEWEST),
    ] {
        let wiring = holding(&rt, overflows)?;
        let size = overflows.len();
        let world = played(&rt, &wiring, &list, &placed(&rt, size, false)?)?;
        let text = trace_text(rt.alloc(), &world, &wiring, 0)?;
        let newest = if version == 2 { " overflow NEWEST" } else { "" };
        let mut want = format!(in rt.alloc();
            "cyber-trace {version}\nplayed 6 shadowed 0\ncomponent \"a\"{first}"
        )?;
        if size == 2 {
            want.push_str(&format!(in rt.alloc(); "component \"b\"{newest}{second}")?)?;
        }
        want.push_str("tape \"/a\" 1\n")?;
        assert!(rt;
            str::from_utf8(text.as_slice())?.starts_with(want.as_str()),
            "{want}"
        );
    }
    Ok(())
}

#[test]
fn resumes_in_the_order_of_the_scan(rt: HostRuntime) -> Result<(), Fail> {
    let rows = [(Kind::Pass, &[0u32] as &[u32]), (Kind::Pass, &[0])];
    let messages = [(0, 1, Some(1))];
    for (backwards, tape) in [
        (false, "tape \"/a\" 1\ntape \"/x\" 1\ntape \"/y\" 1\n"),
        (true, "tape \"/a\" 1\ntape \"/y\" 1\ntape \"/x\" 1\n"),
    ] {
        let text = traced(&rt, &["/a", "/x", "/y"], &rows, &messages, backwards)?;
        assert!(rt; text.as_str().ends_with(tape), "{text}");
    }
    Ok(())
}

// Messages of the first channel with these values, at the times 1, 2 and so on.
fn messages_with(rt: &HostRuntime, values: &[i64]) -> Result<Vec<Message>, Fail> {
    let mut messages = Vec::new(rt.alloc());
    for (place, value) in values.iter().enumerate() {
        messages.push((0, place as u64 + 1, Some(*value)))?;
    }
    Ok(messages)
}

#[test]
fn calls_components_of_each_class(rt: HostRuntime) -> Result<(), Fail> {
    for (kind, values, calls) in [
        (
            Kind::Window { n: 2 },
            &[5i64, -3, 10] as &[i64],
            "call 1/1 1 1@1=5\ncall 2/2 2 2@2=2\ncall 3/3 3 3@3=7\nend",
        ),
        (
            Kind::Change,
            &[1, 1, 2],
            "call 1/1 1 1@1=1\ncall 2/2 2 -\ncall 3/3 3 2@3=2\nend",
        ),
        (
            Kind::Max,
            &[3, 1, 4],
            "call 1/1 1 1@1=3\ncall 2/2 2 2@2=3\ncall 3/3 3 3@3=4\nend",
        ),
        (
            Kind::Filter { lo: 1, hi: 3 },
            &[0, 1, 3, 4],
            "call 1/1 1 -\ncall 2/2 2 1@2=1\ncall 3/3 3 2@3=3\ncall 4/4 4 -\nend",
        ),
        (
            Kind::Count,
            &[7, 7, 7],
            "call 1/1 1 1@1=1\ncall 2/2 2 2@2=2\ncall 3/3 3 3@3=3\nend",
        ),
    ] {
        let messages = messages_with(&rt, values)?;
        let rows = [(kind, &[0u32] as &[u32])];
        let text = traced(&rt, &["/a", "/o"], &rows, &messages, false)?;
        assert!(rt; text.as_str().contains(calls), "{text}");
    }
    Ok(())
}

#[test]
fn keeps_sixteen_million_entries(rt: HostRuntime) -> Result<(), Fail> {
    let reads: &[u32] = &[0];
    let rows = [
        (Kind::Pass, reads),
        (Kind::Pass, reads),
        (Kind::Pass, reads),
        (Kind::Pass, reads),
        (Kind::Pass, reads),
    ];
    let wiring = wiring(&rt, &["/a", "/z", "/1", "/2", "/3", "/4", "/5"], &rows)?;
    assert_eq!(rt;
        planned(&wiring, &[1_048_576, 0, 0, 0, 0, 0, 0]),
        16_777_216
    );
    let more = World::new(rt.alloc(), &wiring, &[1_048_576, 1, 0, 0, 0, 0, 0], None);
    assert_eq!(rt; more.err(), Some(CoreError::TooMany { count: 16_777_217 }));
    Ok(())
}

// A component passes two messages on, and then waits.
fn has_passed_two(rt: &impl Abort, world: &World) {
    let tape = world.tape_list().iter();
    assert!(rt;
        tape.map(|token| (token.channel, token.seq, token.time, token.whole))
            .eq([
                (0, 1, 1, Some(5)),
                (1, 1, 1, Some(5)),
                (0, 2, 2, Some(6)),
                (1, 2, 2, Some(6)),
            ])
    );
    let calls = world.routine(0).calls();
    assert!(rt;
        calls
            .map(|call| (call.position, call.tail))
            .eq([(1, 1), (2, 2)])
    );
    assert_eq!(rt; world.routine(0).state(), State::DataWait);
    assert_eq!(rt; (world.played(), world.clock()), (2, u64::MAX));
    assert!(rt; world.spent(0));
}

// Two messages, for a component that passes them on.
const TWO: &[Message] = &[(0, 1, Some(5)), (0, 2, Some(6))];

#[test]
fn plays_in_a_world_that_is_handed_over(rt: HostRuntime) -> Result<(), Fail> {
    let wiring = wiring(&rt, &["/a", "/o"], &[(Kind::Pass, &[0])])?;
    let world = World::new(rt.alloc(), &wiring, &[2, 0], None)?;
    let world = run_serial(world, &list(&rt, TWO)?, &placed(&rt, 1, false)?);
    has_passed_two(&rt, &world);
    Ok(())
}

#[test]
fn takes_a_world_apart_and_puts_it_together(rt: HostRuntime) -> Result<(), Fail> {
    let wiring = wiring(&rt, &["/a", "/o"], &[(Kind::Pass, &[0])])?;
    let world = played(&rt, &wiring, &list(&rt, TWO)?, &placed(&rt, 1, false)?)?;
    let parts = world.apart();
    assert_eq!(rt; parts.tape.len(), 4);
    assert_eq!(rt;
        (parts.played, parts.clock, parts.raised),
        (2, u64::MAX, false)
    );
    assert_eq!(rt; parts.spent.as_slice(), [true].as_slice());
    assert_eq!(rt; parts.routines.as_slice()[0].calls().len(), 2);
    assert_eq!(rt; parts.visitors.as_slice()[0].arrival_count(), 2);
    has_passed_two(&rt, &parts.together(rt.alloc())?);
    Ok(())
}
