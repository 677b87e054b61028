// What texts give: their fields with places and values, and what is printed of them.
use cy_msg::Text;
use cy_text::{Entry, Span, TextError, Tree, Value, parse, print};
use std::alloc::Global;
use std::test::Fail;

// A scheduler file as Cyber RT has them.
const CLASSIC: &[u8] = b"scheduler_conf {
  policy: \"classic\"
  process_level_cpuset: \"0-7,16-23\" # all threads are in the cpuset
  threads: [
    { name: \"async_log\" cpuset: \"1\" policy: \"SCHED_OTHER\" prio: 0 },
    { name: \"shm\" cpuset: \"2\" policy: \"SCHED_FIFO\" prio: 10 }
  ]
  classic_conf {
    groups: [
      { name: \"group1\" processor_num: 16 affinity: \"range\"
        cpuset: \"0-7,16-23\" processor_policy: \"SCHED_OTHER\" processor_prio: 0
        tasks: [ { name: \"E\" prio: 0 } ] },
      { name: \"group2\" processor_num: 16 affinity: \"1to1\"
        cpuset: \"8-15,24-31\" processor_policy: \"SCHED_OTHER\" processor_prio: 0
        tasks: [ { name: \"A\" prio: 0 }, { name: \"B\" prio: 1 },
                 { name: \"C\" prio: 2 }, { name: \"D\" prio: 3 } ] }
    ]
  }
}
";

// Its fields, each on a line of its own, and a message for each item of its lists.
const CLASSIC_PRINTED: &[u8] = b"scheduler_conf {
  policy: \"classic\"
  process_level_cpuset: \"0-7,16-23\"
  threads {
    name: \"async_log\"
    cpuset: \"1\"
    policy: \"SCHED_OTHER\"
    prio: 0
  }
  threads {
    name: \"shm\"
    cpuset: \"2\"
    policy: \"SCHED_FIFO\"
    prio: 10
  }
  classic_conf {
    groups {
      name: \"group1\"
      processor_num: 16
      affinity: \"range\"
      cpuset: \"0-7,16-23\"
      processor_policy: \"SCHED_OTHER\"
      processor_prio: 0
      tasks {
        name: \"E\"
        prio: 0
      }
    }
    groups {
      name: \"group2\"
      processor_num: 16
      affinity: \"1to1\"
      cpuset: \"8-15,24-31\"
      processor_policy: \"SCHED_OTHER\"
      processor_prio: 0
      tasks {
        name: \"A\"
        prio: 0
      }
      tasks {
        name: \"B\"
        prio: 1
      }
      tasks {
        name: \"C\"
        prio: 2
      }
      tasks {
        name: \"D\"
        prio: 3
      }
    }
  }
}
";

// The printed form of a text.
fn printed(alloc: Global, text: &[u8]) -> Result<Vec<u8>, TextError> {
    let tree = parse(alloc, text)?;
    Ok(print(alloc, &tree)?.into_vec())
}

#[test]
fn prints_what_it_reads(rt: HostRuntime) -> Result<(), Fail> {
    for (text, want) in [
        (
            b"a < b: 010 ; c: \"x\" 'y' >\nzz: 1.5e3f".as_slice(),
            b"a {\n  b: 8\n  c: \"xy\"\n}\nzz: 1.5e3f\n".as_slice(),
        ),
        (b"# nothing\n", b""),
        (b"a: 0xFf, b: 0; c: -07", b"a: 255\nb: 0\nc: -7\n"),
        (b"a: 18446744073709551615", b"a: 18446744073709551615\n"),
        (b"a: - inf b: -.5 c: 1f", b"a: -inf\nb: -.5\nc: 1f\n"),
        (
            b"a: [1, -x, 'y' 'z', {}] b: []",
            b"a: 1\na: -x\na: \"yz\"\na {\n}\n",
        ),
        (b"a [{b: 1}, <>]", b"a {\n  b: 1\n}\na {\n}\n"),
        (
            b"a: '\\a\\b\\f\\n\\r\\t\\v\\?\\\\\\'\\\"'",
            b"a: \"\\007\\010\\014\\n\\r\\t\\013?\\\\'\\\"\"\n",
        ),
        (b"a: '\\101\\7\\x4a\\xF0'", b"a: \"A\\007J\\360\"\n"),
        (
            b"a: '\\u00e4\\U0001F600'",
            b"a: \"\xC3\xA4\xF0\x9F\x98\x80\"\n",
        ),
    ] {
        assert_eq!(rt; printed(rt.alloc(), text)?.as_slice(), want);
    }
    Ok(())
}

#[test]
fn reads_a_classic_file(rt: HostRuntime) -> Result<(), Fail> {
    let once = printed(rt.alloc(), CLASSIC)?;
    assert_eq!(rt; once.as_slice(), CLASSIC_PRINTED);
    let twice = printed(rt.alloc(), &once)?;
    assert_eq!(rt; twice.as_slice(), once.as_slice());
    Ok(())
}

#[test]
fn reads_numbers_truths_and_texts(rt: HostRuntime) -> Result<(), Fail> {
    let tree = parse(
        rt.alloc(),
        b"a: -18446744073709551615 b: True c: 1 d: 'x' e: '\\377' f: 2.0 g: -true h: -1",
    )?;
    let entries = tree.entries();
    assert_eq!(rt; entries.len(), 8);
    for (entry, (whole, truth, text)) in entries.iter().zip([
        (Some(-18_446_744_073_709_551_615), None, None),
        (None, Some(true), None),
        (Some(1), Some(true), None),
        (None, None, Some("x")),
        (None, None, None),
        (None, None, None),
        (None, None, None),
        (Some(-1), None, None),
    ]) {
        assert_eq!(rt; entry.value.whole(), whole);
        assert_eq!(rt; entry.value.truth(), truth);
        assert_eq!(rt; entry.value.text(), text);
    }
    Ok(())
}

#[test]
fn gives_the_places_of_fields(rt: HostRuntime) -> Result<(), Fail> {
    let tree = parse(rt.alloc(), b"ab: 'x' 'y' c: [ -1, {} ]")?;
    let entries = tree.entries();
    assert_eq!(rt; entries.len(), 3);
    for (entry, span) in entries.iter().zip([(0, 11), (17, 19), (21, 23)]) {
        assert_eq!(rt; (entry.span.start, entry.span.end), span);
    }
    Ok(())
}

#[test]
fn prints_a_tree_that_was_made(rt: HostRuntime) -> Result<(), Fail> {
    let mut entries = Vec::new(rt.alloc());
    let value = Value::Message(Tree::new(rt.alloc()));
    let span = Span { start: 0, end: 0 };
    let name = Text::new(rt.alloc(), "a")?;
    entries.push(Entry { name, span, value })?;
    let mut tree = Tree::from_entries(entries);
    let name = Text::new(rt.alloc(), "b")?;
    let text = Text::new(rt.alloc(), "x")?;
    let value = Value::Word {
        negative: true,
        text,
    };
    tree.push(Entry { name, span, value })?;
    assert_eq!(rt;
        print(rt.alloc(), &tree)?.as_slice(),
        b"a {\n}\nb: -x\n".as_slice()
    );
    Ok(())
}
