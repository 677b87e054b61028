// DAG files and component files.
use super::texts::{parsed, tree};
use cy_comp::Kind;
use cy_dag::{DagError, read_component_config, read_dag};
use cy_fuse::Overflow;
use std::test::Fail;

// The name of a refusal.
fn name_of(error: &DagError) -> &'static str {
    match error {
        DagError::Shape { .. } => "Shape",
        DagError::NoComponents => "NoComponents",
        DagError::TooMany { .. } => "TooMany",
        DagError::Missing { .. } => "Missing",
        DagError::NameTwice { .. } => "NameTwice",
        DagError::UnknownClass { .. } => "UnknownClass",
        DagError::NoReader { .. } => "NoReader",
        DagError::TooManyReaders { .. } => "TooManyReaders",
        DagError::ReaderTwice { .. } => "ReaderTwice",
        DagError::TooFewReaders { .. } => "TooFewReaders",
        DagError::NotOverflow { .. } => "NotOverflow",
        DagError::NotWhole { .. } => "NotWhole",
        DagError::TooManyValues { .. } => "TooManyValues",
        DagError::PathLength { .. } => "PathLength",
        DagError::PathNumber { .. } => "PathNumber",
        DagError::NotKind { .. } => "NotKind",
        DagError::NotScale { .. } => "NotScale",
        DagError::ZeroInterval { .. } => "ZeroInterval",
        DagError::TwoWriters { .. } => "TwoWriters",
        DagError::TimerWritten { .. } => "TimerWritten",
        DagError::TriggerCycle { .. } => "TriggerCycle",
        DagError::ValueDiffers { .. } => "ValueDiffers",
        DagError::ValueWritten { .. } => "ValueWritten",
        DagError::TooManyChannels { .. } => "TooManyChannels",
        DagError::Memory => "Memory",
    }
}

// Its first number and its second.
fn numbers_of(error: &DagError) -> (Option<u32>, Option<u32>) {
    match error {
        DagError::TooMany { count }
        | DagError::TooManyChannels { count }
        | DagError::TooManyValues { count } => (Some(*count), None),
        DagError::Missing { component, .. }
        | DagError::UnknownClass { component }
        | DagError::NoReader { component }
        | DagError::ReaderTwice { component, .. }
        | DagError::NotOverflow { component }
        | DagError::ZeroInterval { component }
        | DagError::NotWhole { component, .. } => (Some(*component), None),
        DagError::TooManyReaders { component, count }
        | DagError::TooFewReaders { component, count } => (Some(*component), Some(*count)),
        DagError::NameTwice { first, second }
        | DagError::TwoWriters { first, second }
        | DagError::ValueDiffers { first, second } => (Some(*first), Some(*second)),
        DagError::PathLength {
            component, value, ..
        }
        | DagError::PathNumber { component, value }
        | DagError::NotKind { component, value }
        | DagError::NotScale { component, value } => (Some(*component), Some(*value)),
        DagError::ValueWritten { component, writer } => (Some(*component), Some(*writer)),
        DagError::TimerWritten { component, timer } => (Some(*component), Some(*timer)),
        _ => (None, None),
    }
}

// The path, the field or the channel that it names.
fn text_of(error: &DagError) -> Option<&str> {
    match error {
        DagError::Shape { path } => Some(path.as_str()),
        DagError::Missing { field, .. } | DagError::NotWhole { field, .. } => Some(field.as_str()),
        DagError::ReaderTwice { channel, .. } => Some(channel.as_str()),
        _ => None,
    }
}

// Adds a number behind a space.
fn push_number(rt: &HostRuntime, line: &mut String, number: u32) -> Result<(), Fail> {
    line.push_str(format!(in rt.alloc(); " {number}")?.as_str())?;
    Ok(())
}

// Why a file is refused, in one line.
pub(crate) fn refusal(rt: &HostRuntime, error: &DagError) -> Result<String, Fail> {
    let mut line = String::from_str(rt.alloc(), name_of(error))?;
    let (first, second) = numbers_of(error);
    for number in [first, second] {
        if let Some(number) = number {
            push_number(rt, &mut line, number)?;
        }
    }
    if let Some(text) = text_of(error) {
        line.push_str(" ")?;
        line.push_str(text)?;
    }
    if let DagError::PathLength { count, .. } = error {
        push_number(rt, &mut line, *count)?;
    }
    if let DagError::TriggerCycle { components } = error {
        for component in components.as_slice() {
            push_number(rt, &mut line, *component)?;
        }
    }
    Ok(line)
}

// What a DAG says, or why it is refused, in one line.
fn told(rt: &HostRuntime, text: &str) -> Result<String, Fail> {
    let tree = tree(rt, text.as_bytes())?;
    let dag = match read_dag(rt.alloc(), &tree) {
        Ok(dag) => dag,
        Err(error) => return refusal(rt, &error),
    };
    let mut line = String::new(rt.alloc());
    for component in dag.components.as_slice() {
        line.push_str(format!(in rt.alloc();
            "{} {} {}:",
            component.name.as_str(),
            component.class_name.as_str(),
            component.config_file_path.as_str()
        )?
        .as_str())?;
        for reader in component.readers.as_slice() {
            line.push_str(format!(in rt.alloc();
                " {} {}",
                reader.channel.as_str(),
                reader.queue
            )?.as_str())?;
        }
        if let Some(interval) = component.interval {
            line.push_str(format!(in rt.alloc(); " every {interval}")?.as_str())?;
        }
        line.push_str("; ")?;
    }
    for path in dag.unknown.as_slice() {
        line.push_str(path.as_str())?;
        line.push_str(" ")?;
    }
    Ok(line)
}

// A DAG of one module with these components.
pub(crate) fn dag(rt: &HostRuntime, components: &str) -> Result<String, Fail> {
    Ok(format!(in rt.alloc(); "module_config {{ {components} }}")?)
}

#[test]
fn reads_and_refuses_dags(rt: HostRuntime) -> Result<(), Fail> {
    for (components, want) in [
        (
            "module_library: \"x\" components { class_name: \"PassComponent\" \
            config { name: \"p\" config_file_path: \"p.conf\" readers { channel: \"/a\" \
            pending_queue_size: 0 } } }",
            "p PassComponent p.conf: /a 1; ",
        ),
        (
            "components { class_name: \"SumComponent\" config { name: \"s\" \
            config_file_path: \"s\" readers { channel: \"/a\" pending_queue_size: 7 \
            qos_profile { depth: 1 } } readers { channel: \"/b\" } } } colour: 3",
            "s SumComponent s: /a 7 /b 1; module_config[0].colour ",
        ),
        (
            "components { } components { colour: 1 config { name: \"a\" name: 3 } }",
            "Shape module_config[0].components[1].config.name",
        ),
        (
            "timer_components { config { interval: -1 } }",
            "Shape module_config[0].timer_components[0].config.interval",
        ),
        ("", "NoComponents"),
        (
            "components { class_name: 3 } timer_components { }",
            "Shape module_config[0].components[0].class_name",
        ),
        ("components { } timer_components { }", "Missing 0 name"),
        ("components { }", "Missing 0 name"),
        ("components { config { name: \"\" } }", "Missing 0 name"),
        (
            "components { class_name: \"Foo\" config { name: \"a\" } }",
            "UnknownClass 0",
        ),
        (
            "components { class_name: \"PassComponent\" config { name: \"a\" } }",
            "NoReader 0",
        ),
        (
            "components { class_name: \"PassComponent\" config { name: \"a\" \
            readers [ {}, {}, {}, {}, {} ] } }",
            "TooManyReaders 0 5",
        ),
        (
            "components { class_name: \"PassComponent\" config { name: \"a\" \
            readers [ { channel: \"/x\" }, { channel: \"/x\" }, {} ] } }",
            "Missing 0 channel",
        ),
        (
            "components { class_name: \"SelectComponent\" config { name: \"a\" \
            readers [ { channel: \"/x\" }, { channel: \"/x\" } ] } }",
            "ReaderTwice 0 /x",
        ),
        (
            "components { class_name: \"SelectComponent\" config { name: \"a\" \
            readers [ { channel: \"/x\" }, { channel: \"/y\" } ] } }",
            "TooFewReaders 0 2",
        ),
        (
            "components { class_name: \"PassComponent\" config { name: \"a\" \
            readers { channel: \"/x\" } } }",
            "Missing 0 config_file_path",
        ),
        (
            "components { class_name: \"PassComponent\" config { name: \"a\" \
            config_file_path: \"f\" readers { channel: \"/x\" } } } \
            components { class_name: \"Foo\" config { name: \"a\" } }",
            "NameTwice 0 1",
        ),
        (
            "components { class_name: \"PassComponent\" config { name: \"a\" \
            readers { channel: \"/x\" qos_profile: 3 } } }",
            "Shape module_config[0].components[0].config.readers[0].qos_profile",
        ),
    ] {
        let text = dag(&rt, components)?;
        let line = told(&rt, text.as_str())?;
        assert_eq!(rt; line.as_str(), want, "{components}");
    }
    Ok(())
}

#[test]
fn refuses_the_sixty_fifth_component(rt: HostRuntime) -> Result<(), Fail> {
    for (count, more, want) in [
        (64, "", "Missing 0 name"),
        (65, "", "TooMany 65"),
        (63, "timer_components { } ", "Missing 0 name"),
        (64, "timer_components { } ", "TooMany 65"),
        (0, "timer_components [ {}, {} ] ", "Missing 0 name"),
    ] {
        let mut text = String::from_str(rt.alloc(), "module_config { ")?;
        for _ in 0..count {
            text.push_str("components { } ")?;
        }
        text.push_str(more)?;
        text.push_str("}")?;
        let line = told(&rt, text.as_str())?;
        assert_eq!(rt; line.as_str(), want);
    }
    Ok(())
}

// Timer components stand behind all components, and each is tested behind all of them.
#[test]
fn reads_and_refuses_timer_components(rt: HostRuntime) -> Result<(), Fail> {
    for (components, want) in [
        (
            "timer_components { class_name: \"CountComponent\" config { name: \"t\" \
            config_file_path: \"t.conf\" interval: 5 readers { channel: \"/x\" } } } \
            components { class_name: \"PassComponent\" config { name: \"p\" \
            config_file_path: \"p.conf\" interval: 0 readers { channel: \"@timer/t\" } } }",
            "p PassComponent p.conf: @timer/t 1; t CountComponent t.conf: @timer/t 1 every 5; \
            module_config[0].timer_components[0].config.readers \
            module_config[0].components[0].config.interval ",
        ),
        (
            "timer_components { class_name: \"HoldComponent\" config { name: \"t\" \
            config_file_path: \"f\" interval: 0 interval: 4294967295 } }",
            "t HoldComponent f: @timer/t 1 every 4294967295; ",
        ),
        (
            "timer_components { config { interval: 4294967296 } }",
            "Shape module_config[0].timer_components[0].config.interval",
        ),
        (
            "timer_components { class_name: \"Foo\" config { interval: 0 } }",
            "Missing 0 name",
        ),
        (
            "components { class_name: \"PassComponent\" config { name: \"a\" \
            config_file_path: \"f\" readers { channel: \"/x\" } } } \
            timer_components { class_name: \"Foo\" config { name: \"a\" } }",
            "NameTwice 0 1",
        ),
        (
            "timer_components { class_name: \"Foo\" config { name: \"a\" } }",
            "UnknownClass 0",
        ),
        (
            "timer_components { class_name: \"SelectComponent\" config { name: \"a\" } }",
            "TooFewReaders 0 1",
        ),
        (
            "timer_components { class_name: \"PassComponent\" config { name: \"a\" } }",
            "Missing 0 config_file_path",
        ),
        (
            "timer_components { class_name: \"PassComponent\" config { name: \"a\" \
            config_file_path: \"f\" } }",
            "Missing 0 interval",
        ),
        (
            "timer_components { class_name: \"PassComponent\" config { name: \"a\" \
            config_file_path: \"f\" interval: 0 } }",
            "ZeroInterval 0",
        ),
        (
            "timer_components { class_name: \"PassComponent\" config { name: \"a\" \
            config_file_path: \"f\" interval: 1 } } components { }",
            "Missing 0 name",
        ),
    ] {
        let text = dag(&rt, components)?;
        let line = told(&rt, text.as_str())?;
        assert_eq!(rt; line.as_str(), want, "{components}");
    }
    Ok(())
}

// A class with its parameters; of one whose answers come from a file, how many there are.
fn class_text(rt: &HostRuntime, kind: &Kind) -> Result<String, Fail> {
    Ok(match kind {
        Kind::Pass => format!(in rt.alloc(); "Pass")?,
        Kind::Filter { lo, hi } => format!(in rt.alloc(); "Filter {lo} {hi}")?,
        Kind::Sum => format!(in rt.alloc(); "Sum")?,
        Kind::Count => format!(in rt.alloc(); "Count")?,
        Kind::Max => format!(in rt.alloc(); "Max")?,
        Kind::Window { n } => format!(in rt.alloc(); "Window {n}")?,
        Kind::Change => format!(in rt.alloc(); "Change")?,
        Kind::Select => format!(in rt.alloc(); "Select")?,
        Kind::Hold { delay } => format!(in rt.alloc(); "Hold {delay}")?,
        Kind::Take { n } => format!(in rt.alloc(); "Take {n}")?,
        Kind::External { answers } => {
            format!(in rt.alloc(); "External {}", answers.as_slice().len())?
        }
    })
}

// What a component file says, or why it is refused, in one line.
fn config(rt: &HostRuntime, class: &str, text: &str) -> Result<String, Fail> {
    let tree = tree(rt, text.as_bytes())?;
    let config = match read_component_config(rt.alloc(), &tree, 5, class) {
        Ok(config) => config,
        Err(error) => return refusal(rt, &error),
    };
    let class = class_text(rt, &config.kind)?;
    let mut line = format!(in rt.alloc();
        "{class} {} {}",
        config.out.as_str(),
        config.options.out_type.as_str()
    )?;
    if !config.options.answers.as_str().is_empty() {
        line.push_str(" of ")?;
        line.push_str(config.options.answers.as_str())?;
    }
    if config.overflow == Overflow::Oldest {
        line.push_str(" OLDEST")?;
    }
    for path in config.unknown.as_slice() {
        line.push_str(" ")?;
        line.push_str(path.as_str())?;
    }
    Ok(line)
}

#[test]
fn reads_and_refuses_component_files(rt: HostRuntime) -> Result<(), Fail> {
    for (class, text, want) in [
        ("PassComponent", "out: \"/o\" colour: 3", "Pass /o  colour"),
        ("SumComponent", "out: \"\" out_type: \"T\" n: 3", "Sum  T n"),
        (
            "FilterComponent",
            "out: \"/o\" lo: -9223372036854775808 hi: 9223372036854775807",
            "Filter -9223372036854775808 9223372036854775807 /o ",
        ),
        ("FilterComponent", "out: \"/o\" lo: 1", "Missing 5 hi"),
        ("FilterComponent", "out: \"/o\" lo: \"x\"", "NotWhole 5 lo"),
        (
            "FilterComponent",
            "out: \"/o\" hi: 9223372036854775808 lo: 1",
            "NotWhole 5 hi",
        ),
        ("FilterComponent", "lo: \"x\"", "Missing 5 out"),
        (
            "PassComponent",
            "out: \"/o\" on_overflow: NEWEST",
            "Pass /o ",
        ),
        (
            "PassComponent",
            "on_overflow: OLDEST out: \"/o\" depth: 1",
            "Pass /o  OLDEST depth",
        ),
        (
            "PassComponent",
            "out: \"/o\" on_overflow: \"OLDEST\"",
            "NotOverflow 5",
        ),
        (
            "PassComponent",
            "out: \"/o\" on_overflow: 3",
            "NotOverflow 5",
        ),
        (
            "PassComponent",
            "out: \"/o\" on_overflow: OLD",
            "NotOverflow 5",
        ),
        (
            "PassComponent",
            "out: \"/o\" on_overflow: oldest",
            "NotOverflow 5",
        ),
        (
            "PassComponent",
            "out: \"/o\" on_overflow: -OLDEST",
            "NotOverflow 5",
        ),
        (
            "PassComponent",
            "out: \"/o\" on_overflow { OLDEST: 1 }",
            "NotOverflow 5",
        ),
        (
            "PassComponent",
            "out: \"/o\" on_overflow: 3 on_overflow: OLDEST",
            "Pass /o  OLDEST",
        ),
        (
            "PassComponent",
            "out: \"/o\" on_overflow: OLDEST on_overflow: NEWEST",
            "Pass /o ",
        ),
        (
            "PassComponent",
            "out: \"/o\" on_overflow: [OLDEST, 3]",
            "NotOverflow 5",
        ),
        ("PassComponent", "out: \"/o\" on_overflow: []", "Pass /o "),
        ("PassComponent", "on_overflow: 3", "Missing 5 out"),
        (
            "PassComponent",
            "out: \"/o\" out_type: 3 on_overflow: 3",
            "Shape out_type",
        ),
        (
            "FilterComponent",
            "out: \"/o\" on_overflow: OLD lo: \"x\"",
            "NotOverflow 5",
        ),
        ("FilterComponent", "out: 3", "Shape out"),
        ("CountComponent", "out: \"/o\"", "Count /o "),
        (
            "ExternalComponent",
            "out: \"/o\" answers: \"a.rec\" n: 1",
            "External 0 /o  of a.rec n",
        ),
        ("ExternalComponent", "out: \"/o\" answers: \"\"", "External 0 /o "),
        ("ExternalComponent", "out: \"/o\" answers: 3", "Shape answers"),
        (
            "PassComponent",
            "out: \"/o\" answers: \"a.rec\"",
            "Pass /o  answers",
        ),
        ("MaxComponent", "out: \"/o\"", "Max /o "),
        (
            "WindowComponent",
            "out: \"/o\" n: 4096",
            "Window 4096 /o ",
        ),
        ("WindowComponent", "out: \"/o\" n: 4097", "NotWhole 5 n"),
        ("WindowComponent", "out: \"/o\" n: 0", "NotWhole 5 n"),
        (
            "WindowComponent",
            "out: \"/o\" n: \"x\" n: 8",
            "Window 8 /o ",
        ),
        ("ChangeComponent", "out: \"/o\"", "Change /o "),
        ("SelectComponent", "out: \"/o\"", "Select /o "),
        (
            "HoldComponent",
            "out: \"/o\" delay: 18446744073709551615",
            "Hold 18446744073709551615 /o ",
        ),
        ("HoldComponent", "out: \"/o\" delay: -1", "NotWhole 5 delay"),
        (
            "TakeComponent",
            "out: \"/o\" n: 4294967295",
            "Take 4294967295 /o ",
        ),
        ("TakeComponent", "out: \"/o\" n: 4294967296", "NotWhole 5 n"),
        ("FooComponent", "out: 3", "UnknownClass 5"),
    ] {
        let line = config(&rt, class, text)?;
        assert_eq!(rt; line.as_str(), want, "{class} {text}");
    }
    Ok(())
}

#[test]
fn names_a_refusal_at_every_cut(rt: HostRuntime) -> Result<(), Fail> {
    let text = dag(
        &rt,
        "components { class_name: \"PassComponent\" config { name: \"p\" config_file_path: \"f\"
        readers { channel: \"/a\" } } }",
    )?;
    let bytes = text.as_str().as_bytes();
    for end in 0..=bytes.len() {
        if let Ok(tree) = parsed(&rt, &bytes[..end])? {
            let whole = read_dag(rt.alloc(), &tree).is_ok();
            assert_eq!(rt; whole, end == bytes.len(), "{end}");
        }
    }
    Ok(())
}
