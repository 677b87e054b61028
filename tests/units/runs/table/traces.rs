// The trace of what happened at a table.
use super::tables::{pass_wiring, table_with};
use super::walk::{play, turn};
use cy_comp::State;
use cy_msg::{Token, Tuple};
use cy_trace_text::trace_text;
use std::str;
use std::test::Fail;

// Four arrivals at the first reader, and then the first call: it takes the newest tuple.
const TRACE: &str = r#"cyber-trace 1
played 4 shadowed 0
component "pass"
roles 0000
call 4/4 4 1@4=4
end DATA_WAIT next 5
tape "/a" 1
tape "/a" 2
tape "/a" 3
tape "/a" 4
tape "/o" 1
"#;

// The message of /a with this number, which is its time and its value too.
fn numbered(seq: u32) -> Token {
    Token {
        channel: 0,
        seq,
        time: u64::from(seq),
        whole: Some(i64::from(seq)),
        origin: Some(seq - 1),
    }
}

#[test]
fn traces_four_messages_before_the_first_call(rt: HostRuntime) -> Result<(), Fail> {
    let (table, mut player) = table_with(&rt, 4, 4, None)?;
    for seq in 1..=4 {
        play(&rt, &table, &mut player, numbered(seq));
    }
    let mut other = table.split(&mut player)?;
    let passed = Token {
        channel: 1,
        seq: 1,
        ..numbered(4)
    };
    assert_eq!(rt;
        turn(&rt, &table, &mut other),
        Some((State::Ready, Some((Tuple::One(numbered(4)), Some(passed)))))
    );
    assert_eq!(rt; turn(&rt, &table, &mut other), Some((State::Ready, None)));
    table.join(&mut player, other);
    let world = table.close(rt.alloc(), player)?;
    let text = trace_text(rt.alloc(), &world, &pass_wiring(&rt, 4)?, 0)?;
    assert_eq!(rt; str::from_utf8(text.as_slice())?, TRACE);
    Ok(())
}
