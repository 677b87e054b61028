// Where component files say that the values of messages are.
use super::dags::refusal;
use super::texts::tree;
use super::wirings::{counts, sums, wired};
use cy_dag::read_component_config;
use cy_value::ChannelValue;
use std::test::Fail;

// A value in one line.
fn line_of(rt: &HostRuntime, value: &ChannelValue) -> Result<String, Fail> {
    let channel = value.channel.as_str();
    let mut line = format!(in rt.alloc(); "{channel}")?;
    for number in value.form.path.as_slice() {
        line.push_str(format!(in rt.alloc(); " {number}")?.as_str())?;
    }
    let kind = value.form.kind.name();
    line.push_str(format!(in rt.alloc(); " {kind} {}; ", value.form.scale)?.as_str())?;
    Ok(line)
}

// The values of a component file of the component 5, or why it is refused, in one line.
fn told(rt: &HostRuntime, text: &str) -> Result<String, Fail> {
    let tree = tree(rt, text.as_bytes())?;
    let config = match read_component_config(rt.alloc(), &tree, 5, "PassComponent") {
        Ok(config) => config,
        Err(error) => return refusal(rt, &error),
    };
    let mut line = String::new(rt.alloc());
    for value in config.options.values.as_slice() {
        line.push_str(line_of(rt, value)?.as_str())?;
    }
    for path in config.unknown.as_slice() {
        line.push_str(path.as_str())?;
        line.push_str(" ")?;
    }
    Ok(line)
}

// The same of a file that says these things of one channel.
fn one(rt: &HostRuntime, value: &str) -> Result<String, Fail> {
    let text = format!(in rt.alloc(); "out: \"/o\" value {{ {value} }}")?;
    told(rt, text.as_str())
}

#[test]
fn reads_and_refuses_a_value(rt: HostRuntime) -> Result<(), Fail> {
    for (value, want) in [
        (
            "channel: \"/a\" path: [1, 1, 1] kind: DOUBLE scale: 1000",
            "/a 1 1 1 DOUBLE 1000; ",
        ),
        (
            "kind: FLOAT path: 2 channel: \"/a\" path: 536870911",
            "/a 2 536870911 FLOAT 1; ",
        ),
        (
            "channel: \"/a\" kind: UINT64 path: 1 scale: 1 colour: 3",
            "/a 1 UINT64 1; value[0].colour ",
        ),
        (
            "channel: \"/a\" path: 1 kind: DOUBLE scale: 10000000000000000000",
            "/a 1 DOUBLE 10000000000000000000; ",
        ),
        (
            "channel: \"/a\" path: [1, 2, 3, 4, 5, 6, 7, 8, 9, 10, 11, 12, 13, 14, 15, 16] \
            kind: BOOL kind: ENUM",
            "/a 1 2 3 4 5 6 7 8 9 10 11 12 13 14 15 16 ENUM 1; ",
        ),
        ("channel: 3 kind: 4", "Shape value[0].channel"),
        ("", "Missing 5 channel"),
        ("channel: \"\" path: 0", "Missing 5 channel"),
        ("channel: \"/a\" path: 0 scale: 3", "Missing 5 kind"),
        ("channel: \"/a\" kind: WORD", "PathLength 5 0 0"),
        ("channel: \"/a\" kind: WORD path: []", "PathLength 5 0 0"),
        (
            "channel: \"/a\" kind: BOOL \
            path: [0, 2, 3, 4, 5, 6, 7, 8, 9, 10, 11, 12, 13, 14, 15, 16, 17]",
            "PathLength 5 0 17",
        ),
        ("channel: \"/a\" kind: 3 path: [1, 0]", "PathNumber 5 0"),
        ("channel: \"/a\" kind: 3 path: -1", "PathNumber 5 0"),
        ("channel: \"/a\" kind: 3 path: 1.0", "PathNumber 5 0"),
        ("channel: \"/a\" kind: 3 path: a", "PathNumber 5 0"),
        ("channel: \"/a\" kind: 3 path: { }", "PathNumber 5 0"),
        (
            "channel: \"/a\" kind: 3 path: 536870912",
            "PathNumber 5 0",
        ),
        ("channel: \"/a\" kind: 3 path: 1 scale: 3", "NotKind 5 0"),
        ("channel: \"/a\" kind: \"DOUBLE\" path: 1", "NotKind 5 0"),
        ("channel: \"/a\" kind: -DOUBLE path: 1", "NotKind 5 0"),
        ("channel: \"/a\" kind: double path: 1", "NotKind 5 0"),
        (
            "channel: \"/a\" kind: DOUBLE path: 1 scale: 0",
            "NotScale 5 0",
        ),
        (
            "channel: \"/a\" kind: DOUBLE path: 1 scale: 20",
            "NotScale 5 0",
        ),
        (
            "channel: \"/a\" kind: DOUBLE path: 1 scale: -10",
            "NotScale 5 0",
        ),
        (
            "channel: \"/a\" kind: FLOAT path: 1 scale: 10.0",
            "NotScale 5 0",
        ),
        (
            "channel: \"/a\" kind: FLOAT path: 1 scale: 10000000000000000001",
            "NotScale 5 0",
        ),
        (
            "channel: \"/a\" kind: INT64 path: 1 scale: 10",
            "NotScale 5 0",
        ),
    ] {
        let line = one(&rt, value)?;
        assert_eq!(rt; line.as_str(), want, "{value}");
    }
    Ok(())
}

#[test]
fn reads_and_refuses_several_values(rt: HostRuntime) -> Result<(), Fail> {
    for (text, want) in [
        (
            "value [ { channel: \"/a\" path: 1 kind: BOOL }, \
            { channel: \"/b\" path: 2 kind: BOOL } ] out: \"/o\" \
            value { channel: \"/a\" path: 1 kind: BOOL }",
            "/a 1 BOOL 1; /b 2 BOOL 1; /a 1 BOOL 1; ",
        ),
        (
            "out: \"/o\" value { channel: \"/a\" path: 1 kind: BOOL } \
            value { channel: \"/b\" path: 2 kind: DOUBLE scale: 3 } value { }",
            "NotScale 5 1",
        ),
        ("value { }", "Missing 5 out"),
        ("out: \"/o\" on_overflow: 1 value { }", "NotOverflow 5"),
        ("out: \"/o\" value { } value: 3", "Shape value[1]"),
    ] {
        let line = told(&rt, text)?;
        assert_eq!(rt; line.as_str(), want, "{text}");
    }
    Ok(())
}

// A file with so many values of one channel, and behind them one with no channel.
fn many(rt: &HostRuntime, count: u32) -> Result<String, Fail> {
    let mut text = String::from_str(rt.alloc(), "out: \"/o\"")?;
    for _number in 0..count {
        text.push_str(" value { channel: \"/a\" path: 1 kind: BOOL }")?;
    }
    text.push_str(" value { }")?;
    Ok(text)
}

#[test]
fn refuses_one_value_more_than_a_file_has(rt: HostRuntime) -> Result<(), Fail> {
    let line = told(&rt, many(&rt, 255)?.as_str())?;
    assert_eq!(rt; line.as_str(), "Missing 5 channel");
    let line = told(&rt, many(&rt, 256)?.as_str())?;
    assert_eq!(rt; line.as_str(), "TooManyValues 257");
    Ok(())
}

// The components `a` and `b` read /a, and behind them the timer component `t` stands.
#[test]
fn refuses_values_that_do_not_go_together(rt: HostRuntime) -> Result<(), Fail> {
    let mut components = sums(&rt, "a", &["/a"])?;
    components.push_str(sums(&rt, "b", &["/a"])?.as_str())?;
    components.push_str(counts(&rt, "t")?.as_str())?;
    for (files, want) in [
        (
            [
                "out: \"/x\" value { channel: \"/a\" path: 1 kind: BOOL }",
                "out: \"/y\" value { channel: \"/a\" path: 1 kind: BOOL scale: 1 }",
                "out: \"/z\" value { channel: \"/none\" path: 1 kind: DOUBLE }",
            ],
            "/a /x /y @timer/t /z | a 1: 0 to 1 | b 1: 0 to 2 | t 1: 3 to 4  every 7",
        ),
        (
            [
                "out: \"/x\" value { channel: \"/b\" path: 1 kind: BOOL }",
                "out: \"/y\" value { channel: \"/a\" path: 1 kind: BOOL }",
                "out: \"/z\" value { channel: \"/a\" path: [1, 1] kind: BOOL }",
            ],
            "ValueDiffers 1 2",
        ),
        (
            [
                "out: \"/x\" value { channel: \"/x\" path: 1 kind: FLOAT scale: 10 }",
                "out: \"/y\" value { channel: \"/y\" path: 1 kind: FLOAT }",
                "out: \"/z\" value { channel: \"/x\" path: 1 kind: FLOAT }",
            ],
            "ValueDiffers 0 2",
        ),
        (
            [
                "out: \"/x\"",
                "out: \"/y\" value { channel: \"/x\" path: 1 kind: BOOL } \
                value { channel: \"/x\" path: 1 kind: INT32 }",
                "out: \"/z\"",
            ],
            "ValueDiffers 1 1",
        ),
        (
            [
                "out: \"/x\" value { channel: \"/b\" path: 1 kind: BOOL }",
                "out: \"/y\" value { channel: \"/z\" path: 1 kind: BOOL }",
                "out: \"/z\" value { channel: \"/x\" path: 1 kind: BOOL }",
            ],
            "ValueWritten 1 2",
        ),
        (
            [
                "out: \"/x\" value { channel: \"/x\" path: 1 kind: BOOL }",
                "out: \"/y\"",
                "out: \"/z\"",
            ],
            "ValueWritten 0 0",
        ),
        (
            [
                "out: \"/x\"",
                "out: \"/y\" value { channel: \"@timer/t\" path: 1 kind: BOOL }",
                "out: \"/z\"",
            ],
            "ValueWritten 1 2",
        ),
        (
            [
                "out: \"/x\" value { channel: \"/x\" path: 1 kind: BOOL }",
                "out: \"/x\"",
                "out: \"/z\"",
            ],
            "TwoWriters 0 1",
        ),
    ] {
        let line = wired(&rt, components.as_str(), &files, &[])?;
        assert_eq!(rt; line.as_str(), want);
    }
    Ok(())
}

#[test]
fn takes_values_of_what_an_external_component_writes(rt: HostRuntime) -> Result<(), Fail> {
    let components = "components { class_name: \"ExternalComponent\" config { name: \"e\" \
        config_file_path: \"e\" readers { channel: \"/a\" } } }";
    let files = ["out: \"/x\" value { channel: \"/x\" path: 1 kind: BOOL }"];
    let line = wired(&rt, components, &files, &[])?;
    assert_eq!(rt; line.as_str(), "/a /x | e 1: 0 to 1 ");
    Ok(())
}
