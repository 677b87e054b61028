// Where scheduler files place components.
use super::scheds::CLASSIC;
use super::texts::tree;
use cy_msg::{Placement, Text};
use cy_sched::{Sched, place, read_sched};
use std::test::Fail;

// The contexts of a placement, in one line.
fn line_of(rt: &HostRuntime, placement: &Placement) -> Result<String, Fail> {
    let mut line = String::new(rt.alloc());
    for context in placement.contexts.as_slice() {
        let name = context.name.as_str();
        let pinned = if context.pinned { " pinned" } else { "" };
        let head = format!(in rt.alloc(); "{name} {}{pinned}:", context.processors)?;
        line.push_str(head.as_str())?;
        for number in context.order.as_slice() {
            line.push_str(format!(in rt.alloc(); " {number}")?.as_str())?;
        }
        line.push_str("; ")?;
    }
    Ok(line)
}

// The names of components.
fn texts(rt: &HostRuntime, names: &[&str]) -> Result<Vec<Text>, Fail> {
    let mut texts = Vec::new(rt.alloc());
    for name in names {
        texts.push(Text::new(rt.alloc(), name)?)?;
    }
    Ok(texts)
}

// Where a scheduler file places components with these names, in one line.
fn placed(rt: &HostRuntime, text: &str, names: &[&str]) -> Result<String, Fail> {
    let tree = tree(rt, text.as_bytes())?;
    let texts = texts(rt, names)?;
    match read_sched(rt.alloc(), &tree) {
        Ok(sched) => {
            let placement = place(rt.alloc(), &sched, &texts).map_err(|_| "not placed")?;
            line_of(rt, &placement)
        }
        Err(_) => Err(Fail::new("no scheduler")),
    }
}

#[test]
fn places_in_groups(rt: HostRuntime) -> Result<(), Fail> {
    for (groups, names, want) in [
        (
            "groups { name: \"g\" tasks [ { name: \"x\" prio: 25 }, { name: \"y\" prio: 19 } ] }",
            &["y", "x"] as &[&str],
            "g 1: 0 1; ",
        ),
        (
            "groups { name: \"g\" tasks [ { name: \"x\" prio: 25 }, { name: \"y\" prio: 18 } ] }",
            &["y", "x"],
            "g 1: 1 0; ",
        ),
        (
            "groups { name: \"g\" tasks { name: \"y\" prio: 5 } }",
            &["x", "y"],
            "g 1: 1 0; ",
        ),
        (
            "groups { name: \"g\" tasks { name: \"b\" prio: 0 } tasks { name: \"c\" } }",
            &["a", "b", "c"],
            "g 1: 2 0 1; ",
        ),
        (
            "groups { name: \"g\" tasks { name: \"a\" prio: 9 } tasks { name: \"b\" prio: 5 } \
            tasks { name: \"a\" } }",
            &["a", "b"],
            "g 1: 1 0; ",
        ),
        (
            "groups { name: \"g\" tasks { name: \"a\" } } \
            groups { name: \"h\" processor_num: 2 tasks { name: \"a\" prio: 3 } } \
            groups { name: \"i\" tasks { prio: 9 } }",
            &["a", "b"],
            "g 1: 1; h 2: 0; i 1:; ",
        ),
        (
            "groups { name: \"g\" } groups { name: \"h\" tasks { prio: 9 } }",
            &["", "a"],
            "g 1: 0 1; h 1:; ",
        ),
    ] {
        let text = format!(in rt.alloc(); "scheduler_conf {{ classic_conf {{ {groups} }} }}")?;
        let line = placed(&rt, text.as_str(), names)?;
        assert_eq!(rt; line.as_str(), want, "{groups}");
    }
    Ok(())
}

#[test]
fn places_by_a_classic_file(rt: HostRuntime) -> Result<(), Fail> {
    let line = placed(&rt, CLASSIC, &["A", "B", "C", "D", "E", "F"])?;
    assert_eq!(rt; line.as_str(), "group1 16: 4 5; group2 16: 3 2 1 0; ");
    Ok(())
}

#[test]
fn places_on_processors(rt: HostRuntime) -> Result<(), Fail> {
    for (fields, names, want) in [
        (
            "choreography_processor_num: 4 pool_processor_num: 2 tasks { name: \"a\" processor: 7 }
            tasks { name: \"b\" processor: 0 prio: 1 } tasks { name: \"c\" processor: 0 prio: 5 }",
            &["a", "b", "c", "d"] as &[&str],
            "pinned 0 1 pinned: 2 1; pinned 1 1 pinned:; pinned 2 1 pinned:; pinned 3 1 pinned:; \
            default_grp 2: 0 3; ",
        ),
        (
            "choreography_processor_num: 1 tasks { name: \"a\" processor: 0 prio: 20 }
            tasks { name: \"b\" processor: 0 prio: 21 } tasks { name: \"c\" processor: 1 prio: 20 }
            tasks { name: \"d\" processor: -1 prio: 4294967295 }",
            &["a", "b", "c", "d"],
            "pinned 0 1 pinned: 1 0; default_grp 1: 2 3; ",
        ),
        (
            "choreography_processor_num: 2 tasks { name: \"a\" processor: 0 } \
            tasks { name: \"a\" processor: 1 }
            tasks { name: \"b\" }",
            &["a", "b"],
            "pinned 0 1 pinned:; pinned 1 1 pinned: 0; default_grp 1: 1; ",
        ),
    ] {
        let text = format!(in rt.alloc();
            "scheduler_conf {{ policy: \"choreography\" choreography_conf {{ {fields} }} }}"
        )?;
        let line = placed(&rt, text.as_str(), names)?;
        assert_eq!(rt; line.as_str(), want, "{fields}");
    }
    Ok(())
}

#[test]
fn places_where_there_is_no_file(rt: HostRuntime) -> Result<(), Fail> {
    let sched = Sched::default_grp(rt.alloc()).map_err(|_| "no scheduler")?;
    let names = [Text::new(rt.alloc(), "b")?, Text::new(rt.alloc(), "a")?];
    let placement = place(rt.alloc(), &sched, &names).map_err(|_| "not placed")?;
    let line = line_of(&rt, &placement)?;
    assert_eq!(rt; line.as_str(), "default_grp 2: 0 1; ");
    Ok(())
}
