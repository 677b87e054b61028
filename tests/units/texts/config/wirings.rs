// Wirings of DAG files with their component files.
use super::dags::{dag, refusal};
use super::texts::tree;
use cy_comp::Wiring;
use cy_dag::{Config, Dag, read_component_config, read_dag};
use cy_fuse::Overflow;
use cy_msg::Text;
use cy_wiring::wire;
use std::test::Fail;

// The component files of a DAG, by their texts.
pub(crate) fn configs(rt: &HostRuntime, dag: &Dag, texts: &[&str]) -> Result<Vec<Config>, Fail> {
    let components = dag.components.as_slice();
    let mut configs = Vec::new(rt.alloc());
    for (place, component) in components.iter().enumerate() {
        let text = texts.get(place).copied().unwrap_or("");
        configs.push(config(rt, component.class_name.as_str(), text)?)?;
    }
    Ok(configs)
}

// The component file of a class, by its text.
fn config(rt: &HostRuntime, class: &str, text: &str) -> Result<Config, Fail> {
    let tree = tree(rt, text.as_bytes())?;
    match read_component_config(rt.alloc(), &tree, 0, class) {
        Ok(config) => Ok(config),
        Err(_) => Err(Fail::new("no component file")),
    }
}

// The names of channels.
fn texts(rt: &HostRuntime, names: &[&str]) -> Result<Vec<Text>, Fail> {
    let mut texts = Vec::new(rt.alloc());
    for name in names {
        texts.push(Text::new(rt.alloc(), name)?)?;
    }
    Ok(texts)
}

// A wiring in one line: the names of the channels, and then the components.
fn line_of(rt: &HostRuntime, wiring: &Wiring) -> Result<String, Fail> {
    let mut line = String::new(rt.alloc());
    for number in 0..wiring.names.count() {
        line.push_str(wiring.names.name(number))?;
        line.push_str(" ")?;
    }
    for plan in wiring.plans.as_slice() {
        let name = plan.name.as_str();
        line.push_str(format!(in rt.alloc(); "| {name} {}:", plan.queue)?.as_str())?;
        for reader in plan.readers.as_slice() {
            line.push_str(format!(in rt.alloc(); " {reader}")?.as_str())?;
        }
        let out_type = plan.options.out_type.as_str();
        line.push_str(format!(in rt.alloc(); " to {} {out_type}", plan.out)?.as_str())?;
        if plan.overflow == Overflow::Oldest {
            line.push_str(" OLDEST")?;
        }
        if let Some(interval) = plan.interval {
            line.push_str(format!(in rt.alloc(); " every {interval}")?.as_str())?;
        }
    }
    Ok(line)
}

// The wiring of components with these files, or why there is none, in one line.
pub(crate) fn wired(
    rt: &HostRuntime,
    components: &str,
    files: &[&str],
    channels: &[Text],
) -> Result<String, Fail> {
    let text = dag(rt, components)?;
    let tree = tree(rt, text.as_str().as_bytes())?;
    let dag = read_dag(rt.alloc(), &tree).map_err(|_| "no DAG")?;
    let configs = configs(rt, &dag, files)?;
    match wire(rt.alloc(), &dag, &configs, channels) {
        Ok(wiring) => line_of(rt, &wiring),
        Err(error) => refusal(rt, &error),
    }
}

// A component of a name that sums these channels.
pub(crate) fn sums(rt: &HostRuntime, name: &str, channels: &[&str]) -> Result<String, Fail> {
    let mut text = format!(in rt.alloc();
        "components {{ class_name: \"SumComponent\" config {{ name: \"{name}\" \
        config_file_path: \"f\""
    )?;
    for channel in channels {
        text.push_str(format!(in rt.alloc(); " readers {{ channel: \"{channel}\" }}")?.as_str())?;
    }
    text.push_str(" } } ")?;
    Ok(text)
}

// A component `a` that reads these, and a component `b` that reads these.
fn pair(rt: &HostRuntime, first: &[&str], second: &[&str]) -> Result<String, Fail> {
    let mut text = sums(rt, "a", first)?;
    text.push_str(sums(rt, "b", second)?.as_str())?;
    Ok(text)
}

#[test]
fn numbers_channels_as_they_are_mentioned(rt: HostRuntime) -> Result<(), Fail> {
    let components = pair(&rt, &["/b", "/x"], &["/x", "/c"])?;
    let channels = texts(&rt, &["/a", "/b", "/a"])?;
    let files = [
        "out: \"/y\" out_type: \"T\"",
        "out: \"/z\" on_overflow: OLDEST",
    ];
    let line = wired(&rt, components.as_str(), &files, &channels)?;
    assert_eq!(rt;
        line.as_str(),
        "/a /b /x /y /c /z | a 1: 1 2 to 3 T| b 1: 2 4 to 5  OLDEST"
    );
    Ok(())
}

// A timer component of a name that counts its ticks.
pub(crate) fn counts(rt: &HostRuntime, name: &str) -> Result<String, Fail> {
    Ok(format!(in rt.alloc();
        "timer_components {{ class_name: \"CountComponent\" config {{ name: \"{name}\" \
        config_file_path: \"f\" interval: 7 }} }} "
    )?)
}

// A component of the name `a` reads these, and behind it the timer components `t` and `u` stand.
#[test]
fn wires_timers_to_ticks_of_their_own(rt: HostRuntime) -> Result<(), Fail> {
    for (first, files, want) in [
        (
            &["@timer/u", "/o"] as &[&str],
            ["out: \"/x\"", "out: \"/o\"", "out: \"@timer/\""],
            "@timer/u /o /x @timer/t @timer/ | a 1: 0 1 to 2 | t 1: 3 to 1  every 7\
            | u 1: 0 to 4  every 7",
        ),
        (
            &["/x"],
            ["out: \"/x\"", "out: \"@timer/u\"", "out: \"@timer/t\""],
            "TimerWritten 1 2",
        ),
        (
            &["/x"],
            ["out: \"@timer/t\"", "out: \"/o\"", "out: \"@timer/t\""],
            "TwoWriters 0 2",
        ),
        (
            &["/x"],
            ["out: \"/x\"", "out: \"/y\"", "out: \"@timer/u\""],
            "TimerWritten 2 2",
        ),
        (
            &["/x"],
            ["out: \"/x\"", "out: \"/y\"", "out: \"@timer/a\""],
            "TriggerCycle 0",
        ),
    ] {
        let mut components = counts(&rt, "t")?;
        components.push_str(sums(&rt, "a", first)?.as_str())?;
        components.push_str(counts(&rt, "u")?.as_str())?;
        let line = wired(&rt, components.as_str(), &files, &[])?;
        assert_eq!(rt; line.as_str(), want);
    }
    Ok(())
}

#[test]
fn refuses_a_cycle_of_triggers_alone(rt: HostRuntime) -> Result<(), Fail> {
    let files = ["out: \"/x\"", "out: \"/y\""];
    for (first, second, want) in [
        (&["/y"] as &[&str], &["/x"] as &[&str], "TriggerCycle 0 1"),
        (
            &["/in", "/y"],
            &["/x"],
            "/in /y /x | a 1: 0 1 to 2 | b 1: 2 to 1 ",
        ),
        (&["/x"], &["/in"], "TriggerCycle 0"),
        (&["/y"], &["/y"], "TriggerCycle 1"),
        (
            &["/y", "/x"],
            &["/in", "/y"],
            "/y /x /in | a 1: 0 1 to 1 | b 1: 2 0 to 0 ",
        ),
    ] {
        let components = pair(&rt, first, second)?;
        let line = wired(&rt, components.as_str(), &files, &[])?;
        assert_eq!(rt; line.as_str(), want);
    }
    Ok(())
}

#[test]
fn names_the_first_refusal_of_four_components(rt: HostRuntime) -> Result<(), Fail> {
    let mut components = pair(&rt, &["/w"], &["/y"])?;
    components.push_str(sums(&rt, "c", &["/x"])?.as_str())?;
    components.push_str(sums(&rt, "d", &["/in"])?.as_str())?;
    for (files, want) in [
        (
            ["out: \"/x\"", "out: \"/w\"", "out: \"/y\"", "out: \"/o\""],
            "TriggerCycle 0 1 2",
        ),
        (
            ["out: \"/o\"", "out: \"/x\"", "out: \"/y\"", "out: \"/w\""],
            "TriggerCycle 1 2",
        ),
        (
            ["out: \"/o\"", "out: \"/x\"", "out: \"/x\"", "out: \"/o\""],
            "TwoWriters 1 2",
        ),
        (
            ["out: \"\"", "out: \"/x\"", "out: \"/y\"", "out: \"\""],
            "TwoWriters 0 3",
        ),
    ] {
        let line = wired(&rt, components.as_str(), &files, &[])?;
        assert_eq!(rt; line.as_str(), want);
    }
    Ok(())
}

// A record's channels `/0`, `/1` and so on, so many.
fn many(rt: &HostRuntime, count: u32) -> Result<Vec<Text>, Fail> {
    let mut texts = Vec::new(rt.alloc());
    for number in 0..count {
        let name = format!(in rt.alloc(); "/{number}")?;
        texts.push(Text::new(rt.alloc(), name.as_str())?)?;
    }
    Ok(texts)
}

#[test]
fn refuses_one_channel_more_than_have_names(rt: HostRuntime) -> Result<(), Fail> {
    for (count, reader, file, want) in [
        (1_024, "/0", "out: \"/x\"", "TooManyChannels 1025"),
        (1_024, "/y", "out: \"/x\"", "TooManyChannels 1026"),
        (1_024, "/x", "out: \"/x\"", "TriggerCycle 0"),
    ] {
        let components = sums(&rt, "a", &[reader])?;
        let channels = many(&rt, count)?;
        let line = wired(&rt, components.as_str(), &[file], &channels)?;
        assert_eq!(rt; line.as_str(), want);
    }
    Ok(())
}

#[test]
fn wires_as_many_channels_as_have_names(rt: HostRuntime) -> Result<(), Fail> {
    let components = sums(&rt, "a", &["/7"])?;
    let channels = many(&rt, 1_023)?;
    let line = wired(&rt, components.as_str(), &["out: \"/x\""], &channels)?;
    assert!(rt; line.as_str().ends_with("/1022 /x | a 1: 7 to 1023 "));
    Ok(())
}
