// Texts of traces, and texts that are of none.
use cy_fuse::Overflow;
use cy_trace::{Calls, Trace, TraceError, TraceOutput};
use cy_trace_read::read_trace;
use std::alloc::Global;
use std::test::Fail;

// The trace of a component that passed one message on.
const PASSED: &str = r#"cyber-trace 1
played 1 shadowed 0
component "pass"
roles 0
call 1/1 1 1@100=7
end DATA_WAIT next 2
tape "/in" 1
tape "/out" 1
"#;

// The same of the second version.
const TOLD: &str = r#"cyber-trace 2
played 1 shadowed 0
component "pass" overflow OLDEST
roles 0
call 1/1 1 1@100=7
end DATA_WAIT next 2
tape "/in" 1
tape "/out" 1
"#;

// The line at which a text is bad; 0 where it is none.
fn bad_line(alloc: Global, text: &[u8]) -> Result<u32, Fail> {
    match read_trace(alloc, text) {
        Ok(_) => Ok(0),
        Err(TraceError::Bad { line }) => Ok(line),
        Err(TraceError::Memory) => Err(Fail::from("out of memory")),
    }
}

fn is_call(
    calls: &Calls,
    place: usize,
    position: u64,
    tail: u64,
    seqs: &[u32],
    out: Option<TraceOutput>,
) -> bool {
    match calls.get(place) {
        Some(call) => {
            call.position == position
                && call.tail == tail
                && call.seqs.as_slice() == seqs
                && call.out == out
        }
        None => false,
    }
}

fn is_entry(trace: &Trace, place: usize, name: &str, seq: u32) -> bool {
    let (its_name, message) = trace.tape.entry(place);
    its_name.as_str() == name && message.seq == seq
}

#[test]
fn reads_a_trace(rt: HostRuntime) -> Result<(), Fail> {
    let trace = read_trace(rt.alloc(), PASSED.as_bytes())?;
    assert_eq!(rt; (trace.version, trace.played, trace.shadowed), (1, 1, 0));
    let [component] = trace.components.as_slice() else {
        return Err(Fail::from("one component"));
    };
    assert_eq!(rt; component.name.as_str(), "pass");
    assert_eq!(rt; component.overflow, Overflow::Newest);
    assert_eq!(rt; component.roles.as_slice(), [0].as_slice());
    assert_eq!(rt; (component.finished, component.next), (false, 2));
    assert_eq!(rt; component.calls.count(), 1);
    let out = TraceOutput {
        seq: 1,
        time: 100,
        value: Some(7),
    };
    assert!(rt; is_call(&component.calls, 0, 1, 1, &[1], Some(out)));
    assert_eq!(rt; trace.tape.count(), 2);
    assert!(rt; is_entry(&trace, 0, "/in", 1) && is_entry(&trace, 1, "/out", 1));
    Ok(())
}

// The components of a trace, each in a line that begins with the trace's version.
fn components(rt: &HostRuntime, text: &str) -> Result<String, Fail> {
    let trace = read_trace(rt.alloc(), text.as_bytes())?;
    let mut lines = String::new(rt.alloc());
    for component in trace.components.as_slice() {
        let name = component.name.as_str();
        lines.push_str(&format!(in rt.alloc();
            "{} {:?} {name}\n",
            trace.version, component.overflow
        )?)?;
    }
    Ok(lines)
}

#[test]
fn reads_what_is_told_of_overflow(rt: HostRuntime) -> Result<(), Fail> {
    for (version, rows, want) in [
        (1, &["\"a\""] as &[&str], "1 Newest a\n"),
        (1, &["\" overflow OLDEST\""], "1 Newest  overflow OLDEST\n"),
        (2, &[], ""),
        (
            2,
            &["\"a\" overflow OLDEST", "\"b\" overflow NEWEST"],
            "2 Oldest a\n2 Newest b\n",
        ),
        (2, &["\"a\" overflow NEWEST"], "2 Newest a\n"),
        (
            2,
            &["\"\\\" overflow OLDEST\" overflow NEWEST"],
            "2 Newest \" overflow OLDEST\n",
        ),
    ] {
        let mut text = format!(in rt.alloc(); "cyber-trace {version}\nplayed 0 shadowed 0\n")?;
        for row in rows {
            text.push_str(&format!(in rt.alloc();
                "component {row}\nroles -\nend DATA_WAIT next 0\n"
            )?)?;
        }
        let lines = components(&rt, text.as_str())?;
        assert_eq!(rt; lines.as_str(), want);
    }
    Ok(())
}

#[test]
fn reads_the_greatest_numbers(rt: HostRuntime) -> Result<(), Fail> {
    let text = r#"cyber-trace 1
played 4294967295 shadowed 4294967295
component "a\"b\\\t\n\r\001\177é "
roles -
end FINISHED next 0
component ""
roles 0192
call 1/18446744073709551615 4294967295 1 2 3 -
call 18446744073709551615/4 9 4294967295@18446744073709551615=-9223372036854775808
call 3/3 1 2 1@0=9223372036854775807
call 4/4 0 0 0 2@5=0
call 5/5 1 3@6
end DATA_WAIT next 18446744073709551615
"#;
    let trace = read_trace(rt.alloc(), text.as_bytes())?;
    assert_eq!(rt; (trace.played, trace.shadowed), (u32::MAX, u32::MAX));
    let [first, second] = trace.components.as_slice() else {
        return Err(Fail::from("two components"));
    };
    assert_eq!(rt; first.name.as_str(), "a\"b\\\t\n\r\u{1}\u{7f}é ");
    assert!(rt; first.finished && first.roles.as_slice().is_empty());
    assert!(rt; first.calls.count() == 0 && first.next == 0);
    assert_eq!(rt; second.name.as_str(), "");
    assert_eq!(rt; second.roles.as_slice(), [0, 1, 9, 2].as_slice());
    assert!(rt; !second.finished && second.next == u64::MAX);
    let calls = &second.calls;
    assert!(rt; calls.count() == 5 && calls.get(5).is_none());
    let out = |seq, time, value| Some(TraceOutput { seq, time, value });
    assert!(rt; is_call(calls, 0, 1, u64::MAX, &[u32::MAX, 1, 2, 3], None));
    assert!(rt;
        is_call(
            calls,
            1,
            u64::MAX,
            4,
            &[9],
            out(u32::MAX, u64::MAX, Some(i64::MIN))
        )
    );
    assert!(rt; is_call(calls, 2, 3, 3, &[1, 2], out(1, 0, Some(i64::MAX))));
    assert!(rt; is_call(calls, 3, 4, 4, &[0, 0, 0], out(2, 5, Some(0))));
    assert!(rt; is_call(calls, 4, 5, 5, &[1], out(3, 6, None)));
    assert_eq!(rt; trace.tape.count(), 0);
    Ok(())
}

// The lines of that trace in other spellings, none of which is of the form, and other lines where
// they may not stand: each behind its number, between bars.
const BAD: &str = r#"1|cyber-trace 0|
1|cyber-trace 3|
1|cyber-trace 01|
1|cyber-trace 1 |
1||
1|played 1 shadowed 0|
1|cyber-trace|
2|played 01 shadowed 0|
2|played +1 shadowed 0|
2|played 4294967296 shadowed 0|
2|played 1 shadowed 4294967296|
2|played 1  shadowed 0|
2|played 1 shadowed|
2|played  shadowed 0|
2|cyber-trace 1|
3|component pass|
3|component "pass|
3|component pass"|
3|component "pass" |
3|component "a"b"|
3|component "p\ass"|
3|component "\101"|
3|component "\1"|
3|component "\012"|
3|component "\200"|
3|component "\x01"|
3|component "pass" overflow NEWEST|
3|component "pass" overflow OLDEST|
3|component "|
3|component |
3|played 1 shadowed 0|
4|roles |
4|roles|
4|roles 0-|
4|roles -0|
4|roles --|
4|roles 0 1|
4|roles a|
4||
4|call 1/1 1 -|
5|call 1/1 1 1@0100=7|
5|call 01/1 1 -|
5|call 1/01 1 -|
5|call 1/1 01 -|
5|call 1/1 1 01@100|
5|call 1/1 1 1@100=-0|
5|call 1/1 1 1@100=+7|
5|call 1/1 1 1@100=07|
5|call 1/1 1 1@100=-07|
5|call 1/1 1 1@100=|
5|call 1/1 1 1@100=-|
5|call 18446744073709551616/1 1 -|
5|call 1/18446744073709551616 1 -|
5|call 1/1 4294967296 -|
5|call 1/1 1 4294967296@1|
5|call 1/1 1 1@18446744073709551616|
5|call 1/1 1 1@1=9223372036854775808|
5|call 1/1 1 1@1=-9223372036854775809|
5|call 1/1 -|
5|call 1/1  -|
5|call 1/1 1 2 3 4 5 -|
5|call 1/1  1 -|
5|call 1/1 1  -|
5|call 1/1 1 - |
5|call 1/1 1|
5|call 1 1 -|
5|call 1/1/1 1 -|
5|call 1/1 1 @100|
5|call 1/1 1 1@|
5|call 1/1 1 1@2@3|
5|call 1/1 1 1=7|
5|Call 1/1 1 -|
5|tape "/in" 1|
5|component "a"|
5|roles 0|
6|end DATA_WAIT next 02|
6|end DATA_WAIT next 18446744073709551616|
6|end READY next 2|
6|end DATA_WAIT next|
6|end  next 2|
6|tape "/in" 1|
7|tape "/in"|
7|tape "/in" 01|
7|tape "/in" 4294967296|
7|tape "/in"  1|
7|tape /in 1|
7|call 2/2 2 -|
7|roles 0|
7|end FINISHED next 2|
8|component "pass"|
8|end FINISHED next 2|
8|call 2/2 2 -|"#;

// The same of the trace of the second version.
const BAD_TOLD: &str = r#"1|cyber-trace 02|
1|cyber-trace 2 |
2|cyber-trace 2|
3|component "pass"|
3|component "pass" overflow|
3|component "pass" overflow |
3|component "pass" overflow newest|
3|component "pass" overflow "OLDEST"|
3|component "pass" overflow -OLDEST|
3|component "pass" overflow  OLDEST|
3|component "pass"  overflow OLDEST|
3|component "pass" overflow OLDEST |
3|component "pass" overflow OLDEST overflow OLDEST|
3|component "pass" Overflow OLDEST|
3|component "pass" OLDEST|
3|component "pass overflow OLDEST|
3|component pass overflow OLDEST|
3|component overflow OLDEST|
4|component "a" overflow OLDEST|
5|call 1/1 1 1@0100=7|
6|tape "/in" 1|
7|component "a"|
8|component "a" overflow OLDEST|"#;

// A trace with another line in the place of one.
fn with_line(alloc: Global, trace: &str, number: usize, new: &str) -> Result<String, Fail> {
    let mut text = String::new(alloc);
    for (place, line) in trace.lines().enumerate() {
        text.push_str(if place == number { new } else { line })?;
        text.push_str("\n")?;
    }
    Ok(text)
}

// The number and the line of a row.
fn row_of(row: &str) -> Result<(u32, &str), Fail> {
    let Some((number, rest)) = row.split_once('|') else {
        return Err(Fail::from("a number"));
    };
    let Some((new, _)) = rest.split_once('|') else {
        return Err(Fail::from("a line"));
    };
    Ok((number.parse::<u32>()?, new))
}

#[test]
fn finds_bad_lines(rt: HostRuntime) -> Result<(), Fail> {
    for (trace, rows) in [(PASSED, BAD), (TOLD, BAD_TOLD)] {
        for row in rows.lines() {
            let (number, new) = row_of(row)?;
            let text = with_line(rt.alloc(), trace, number as usize - 1, new)?;
            assert_eq!(rt; bad_line(rt.alloc(), text.as_bytes())?, number, "{row}");
        }
    }
    // The title alone doesn't suit the component.
    for (trace, title) in [(PASSED, "cyber-trace 2"), (TOLD, "cyber-trace 1")] {
        let text = with_line(rt.alloc(), trace, 0, title)?;
        assert_eq!(rt; bad_line(rt.alloc(), text.as_bytes())?, 3, "{title}");
    }
    for (number, new) in [(1, "cyber-trace 1\r"), (3, "component \"a\tb\"")] {
        let text = with_line(rt.alloc(), PASSED, number - 1, new)?;
        assert_eq!(rt;
            bad_line(rt.alloc(), text.as_bytes())? as usize,
            number,
            "{new}"
        );
    }
    Ok(())
}

// A name is a text: other bytes in it are bad where they stand, and not want of memory.
#[test]
fn refuses_names_that_are_no_text(rt: HostRuntime) -> Result<(), Fail> {
    for (text, line) in [
        (
            b"cyber-trace 1\nplayed 0 shadowed 0\ncomponent \"\xff\"\nroles -\n".as_slice(),
            3,
        ),
        (
            b"cyber-trace 1\nplayed 0 shadowed 0\ntape \"/in\" 1\ntape \"a\xc3\" 2\n",
            4,
        ),
    ] {
        assert_eq!(rt; bad_line(rt.alloc(), text)?, line);
    }
    Ok(())
}

// Every prefix of a trace is bad at the line that it ends in, but those that are a trace's text.
#[test]
fn finds_where_a_text_ends(rt: HostRuntime) -> Result<(), Fail> {
    let mut line = 1u32;
    for (len, byte) in PASSED.as_bytes().iter().enumerate() {
        let Some(prefix) = PASSED.get(..len) else {
            return Err(Fail::from("not in ASCII"));
        };
        let is_trace = (line == 3 || line >= 7) && prefix.ends_with('\n');
        let want = if is_trace { 0 } else { line };
        assert_eq!(rt; bad_line(rt.alloc(), prefix.as_bytes())?, want, "{len}");
        if *byte == b'\n' {
            line += 1;
        }
    }
    assert_eq!(rt; line, 9);
    Ok(())
}

// 70 names come in turns, backwards and each three times on end. Some are spelled with escapes, and
// some look like the end of a name. Each has one number, in the order in which they first came.
#[test]
fn numbers_each_name_once(rt: HostRuntime) -> Result<(), Fail> {
    let mut text = String::from_str(rt.alloc(), "cyber-trace 1\nplayed 0 shadowed 0\n")?;
    for place in 0..350u32 {
        let name = name_at(place);
        let mark = ["", "\\\"", "\\\" 7", "\\\\", "\\n", " "][name as usize % 6];
        text.push_str(&format!(in rt.alloc(); "tape \"{name}{mark}\" {place}\n")?)?;
    }
    let trace = read_trace(rt.alloc(), text.as_bytes())?;
    assert_eq!(rt; trace.tape.count(), 350);
    for place in 0..350u32 {
        let (name, message) = trace.tape.entry(place as usize);
        let mark = ["", "\"", "\" 7", "\\", "\n", " "][name_at(place) as usize % 6];
        let want = format!(in rt.alloc(); "{}{mark}", name_at(place))?;
        assert_eq!(rt; name.as_str(), want.as_str());
        assert_eq!(rt; (message.name, message.seq), (name_at(place), place));
    }
    Ok(())
}

fn name_at(place: u32) -> u32 {
    match place {
        0..70 => place,
        70..140 => 139 - place,
        _ => (place - 140) / 3,
    }
}
