// Scheduler files.
use super::texts::{parsed, tree};
use cy_msg::Text;
use cy_sched::{Group, PinTask, Sched, SchedError, read_sched};
use std::test::Fail;

pub(crate) const CLASSIC: &str = "scheduler_conf {
  policy: \"classic\"
  process_level_cpuset: \"0-7,16-23\" # all threads are in the cpuset
  threads: [
    { name: \"async_log\" cpuset: \"1\" policy: \"SCHED_OTHER\" prio: 0 },
    { name: \"shm\" cpuset: \"2\" policy: \"SCHED_FIFO\" prio: 10 }
  ]
  classic_conf {
    groups: [
      { name: \"group1\" processor_num: 16 affinity: \"range\"
        cpuset: \"0-7,16-23\" processor_policy: \"SCHED_OTHER\" processor_prio: 0
        tasks: [ { name: \"E\" prio: 0 } ] },
      { name: \"group2\" processor_num: 16 affinity: \"1to1\"
        cpuset: \"8-15,24-31\" processor_policy: \"SCHED_OTHER\" processor_prio: 0
        tasks: [ { name: \"A\" prio: 0 }, { name: \"B\" prio: 1 },
                 { name: \"C\" prio: 2 }, { name: \"D\" prio: 3 } ] }
    ]
  }
}
";

// The name of a refusal, and what it names.
fn parts_of(error: &SchedError) -> (&'static str, Option<&str>) {
    match error {
        SchedError::Shape { path } => ("Shape ", Some(path.as_str())),
        SchedError::UnknownPolicy { policy } => ("UnknownPolicy ", Some(policy.as_str())),
        SchedError::NoGroup => ("NoGroup", None),
        SchedError::GroupTwice { name } => ("GroupTwice ", Some(name.as_str())),
        SchedError::TooManyProcessors { .. } => ("TooManyProcessors ", None),
        SchedError::Memory => ("Memory", None),
    }
}

// Why a file is refused, in one line.
fn refusal(rt: &HostRuntime, error: &SchedError) -> Result<String, Fail> {
    let (name, named) = parts_of(error);
    let mut line = String::from_str(rt.alloc(), name)?;
    line.push_str(named.unwrap_or(""))?;
    if let SchedError::TooManyProcessors { count } = error {
        line.push_str(format!(in rt.alloc(); "{count}")?.as_str())?;
    }
    Ok(line)
}

// The group of a classic scheduler, with its tasks.
fn push_group(rt: &HostRuntime, line: &mut String, group: &Group) -> Result<(), Fail> {
    let head = format!(in rt.alloc(); "{} {}:", group.name.as_str(), group.processors)?;
    line.push_str(head.as_str())?;
    for task in group.tasks.as_slice() {
        let told = format!(in rt.alloc(); " {} {}", task.name.as_str(), task.prio)?;
        line.push_str(told.as_str())?;
    }
    line.push_str("; ")?;
    Ok(())
}

// The tasks of a choreography.
fn push_tasks(rt: &HostRuntime, line: &mut String, tasks: &[PinTask]) -> Result<(), Fail> {
    for task in tasks {
        let told = format!(in rt.alloc();
            " {} {} {}",
            task.name.as_str(),
            task.processor,
            task.prio
        )?;
        line.push_str(told.as_str())?;
    }
    Ok(())
}

// The paths of fields that are not known.
fn push_unknown(line: &mut String, unknown: &[Text]) -> Result<(), Fail> {
    for path in unknown {
        line.push_str(" ")?;
        line.push_str(path.as_str())?;
    }
    Ok(())
}

// A scheduler, in one line.
fn line_of(rt: &HostRuntime, sched: &Sched) -> Result<String, Fail> {
    let mut line = String::new(rt.alloc());
    match sched {
        Sched::Classic { groups, unknown } => {
            for group in groups.as_slice() {
                push_group(rt, &mut line, group)?;
            }
            push_unknown(&mut line, unknown.as_slice())?;
        }
        Sched::Choreography {
            processors,
            pool,
            tasks,
            unknown,
        } => {
            line.push_str(format!(in rt.alloc(); "{processors} and {pool}:")?.as_str())?;
            push_tasks(rt, &mut line, tasks.as_slice())?;
            push_unknown(&mut line, unknown.as_slice())?;
        }
    }
    Ok(line)
}

// What a text says, or why it is refused, in one line.
fn told(rt: &HostRuntime, text: &str) -> Result<String, Fail> {
    let tree = tree(rt, text.as_bytes())?;
    match read_sched(rt.alloc(), &tree) {
        Ok(sched) => line_of(rt, &sched),
        Err(error) => refusal(rt, &error),
    }
}

#[test]
fn reads_a_classic_file(rt: HostRuntime) -> Result<(), Fail> {
    let line = told(&rt, CLASSIC)?;
    assert_eq!(rt;
        line.as_str(),
        "group1 16: E 0; group2 16: A 0 B 1 C 2 D 3; "
    );
    Ok(())
}

#[test]
fn reads_and_refuses_small_files(rt: HostRuntime) -> Result<(), Fail> {
    for (text, want) in [
        ("", "NoGroup"),
        ("scheduler_conf { policy: \"fair\" }", "UnknownPolicy fair"),
        (
            "scheduler_conf { policy: \"\" classic_conf { } }",
            "UnknownPolicy ",
        ),
        ("scheduler_conf { default_proc_num: 3 }", "default_grp 3:; "),
        ("scheduler_conf { default_proc_num: 0 }", "NoGroup"),
        ("scheduler_conf { classic_conf { groups { } } }", " 1:; "),
        (
            "scheduler_conf { classic_conf { groups { processor_num: 65 } } }",
            "TooManyProcessors 65",
        ),
        (
            "scheduler_conf { classic_conf { groups { processor_num: 63 } \
            groups { name: \"b\" } } }",
            " 63:; b 1:; ",
        ),
        (
            "scheduler_conf { classic_conf { groups { name: \"g\" processor_num: 65 } \
            groups { name: \"h\" } groups { name: \"g\" } } }",
            "GroupTwice g",
        ),
        (
            "scheduler_conf { classic_conf { groups { name: 3 } } policy: 4 }",
            "Shape scheduler_conf.classic_conf.groups[0].name",
        ),
        (
            "scheduler_conf { policy: \"fair\" policy: \"classic\" default_proc_num: 1 }",
            "default_grp 1:; ",
        ),
        (
            "scheduler_conf { policy: 1 policy: \"classic\" }",
            "Shape scheduler_conf.policy",
        ),
        ("scheduler_conf { policy: \"choreography\" }", "0 and 1:"),
        (
            "scheduler_conf { policy: \"choreography\" \
            choreography_conf { choreography_processor_num: 4 pool_processor_num: 2
            tasks { name: \"a\" processor: 7 } tasks { name: \"b\" prio: 5 } \
            tasks { processor: -2147483648 colour: 1 } } }",
            "4 and 2: a 7 1 b -1 5  -2147483648 1 scheduler_conf.choreography_conf.tasks[2].colour",
        ),
        (
            "scheduler_conf { policy: \"choreography\" \
            choreography_conf { choreography_processor_num: 63 pool_processor_num: 2 } }",
            "TooManyProcessors 65",
        ),
        (
            "scheduler_conf { policy: \"choreography\" \
            choreography_conf { tasks { processor: 2147483648 } } }",
            "Shape scheduler_conf.choreography_conf.tasks[0].processor",
        ),
        (
            "scheduler_conf { default_proc_num: 4294967296 }",
            "Shape scheduler_conf.default_proc_num",
        ),
    ] {
        let line = told(&rt, text)?;
        assert_eq!(rt; line.as_str(), want, "{text}");
    }
    Ok(())
}

#[test]
fn names_a_refusal_at_every_cut(rt: HostRuntime) -> Result<(), Fail> {
    let bytes = CLASSIC.as_bytes();
    for end in 0..=bytes.len() {
        if let Ok(tree) = parsed(&rt, &bytes[..end])? {
            let whole = read_sched(rt.alloc(), &tree).is_ok();
            assert_eq!(rt; whole, end >= bytes.len() - 1, "{end}");
        }
    }
    Ok(())
}

#[test]
fn gives_a_scheduler_where_there_is_no_file(rt: HostRuntime) -> Result<(), Fail> {
    match Sched::default_grp(rt.alloc()).map_err(|_| "no scheduler")? {
        Sched::Classic { groups, .. } => {
            let group = &groups.as_slice()[0];
            assert_eq!(rt; group.name.as_str(), "default_grp");
            assert_eq!(rt; group.processors, 2);
        }
        Sched::Choreography { .. } => return Err(Fail::from("a classic scheduler")),
    }
    Ok(())
}
