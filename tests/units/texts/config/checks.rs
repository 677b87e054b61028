// The text that tells what configuration files say.
use super::texts::tree;
use super::wirings::configs;
use cy_report::{SchedulerFile, check_text};
use cy_dag::{Dag, read_dag};
use cy_msg::Text;
use cy_sched::{Sched, place};
use std::test::Fail;

// The names of a DAG's components.
fn names(rt: &HostRuntime, dag: &Dag) -> Result<Vec<Text>, Fail> {
    let mut names = Vec::new(rt.alloc());
    for component in dag.components.as_slice() {
        names.push(Text::new(rt.alloc(), component.name.as_str())?)?;
    }
    Ok(names)
}

// What a DAG and component files say, where no scheduler file is given.
fn told(rt: &HostRuntime, text: &str, files: &[&str]) -> Result<String, Fail> {
    let tree = tree(rt, text.as_bytes())?;
    let dag = read_dag(rt.alloc(), &tree).map_err(|_| "no DAG")?;
    let configs = configs(rt, &dag, files)?;
    let names = names(rt, &dag)?;
    let sched = Sched::default_grp(rt.alloc()).map_err(|_| "no scheduler")?;
    let placement = place(rt.alloc(), &sched, &names).map_err(|_| "not placed")?;
    let unknown = [Text::new(rt.alloc(), "scheduler_conf.depth")?];
    let scheduler = SchedulerFile {
        file: "s.conf",
        unknown: &unknown,
    };
    let text = check_text(rt.alloc(), "d.dag", &dag, &configs, &placement, scheduler)?;
    Ok(String::from_utf8(text.into_vec())?)
}

#[test]
fn tells_components_contexts_and_unknown_fields(rt: HostRuntime) -> Result<(), Fail> {
    for (dag, files, want) in [
        (
            "module_config { module_library: \"x\" components { class_name: \"PassComponent\" \
            config { name: \"p\" config_file_path: \"p.conf\" readers { channel: \"/a\" \
            pending_queue_size: 0 } } } }",
            &["out: \"/o\" colour: 3"] as &[&str],
            "component \"p\" class PassComponent reads \"/a\" queue 1 writes \"/o\"\n\
            context \"default_grp\" processors 2 order \"p\"\nunknown p.conf colour\n\
            unknown s.conf scheduler_conf.depth\nok\n",
        ),
        (
            "module_config { components { class_name: \"SumComponent\" \
            config { name: \"s\\n\" config_file_path: \"s\" \
            readers { channel: \"/a\" pending_queue_size: 7 } readers { channel: \"/b\" } } } \
            components { class_name: \"TakeComponent\" \
            config { name: \"t\" config_file_path: \"t\" readers { channel: \"/a\" } } } } \
            depth { }",
            &[
                "out: \"/o\" on_overflow: NEWEST",
                "out: \"\" n: 3 on_overflow: OLDEST",
            ],
            "component \"s\\n\" class SumComponent reads \"/a\" \"/b\" queue 7 writes \"/o\"\n\
            component \"t\" class TakeComponent reads \"/a\" queue 1 writes \"\" \
            overflow OLDEST\n\
            context \"default_grp\" processors 2 order \"s\\n\" \"t\"\nunknown d.dag depth\n\
            unknown s.conf scheduler_conf.depth\nok\n",
        ),
        (
            "module_config { timer_components { class_name: \"CountComponent\" \
            config { name: \"t\" config_file_path: \"t\" interval: 20 } } components { \
            class_name: \"PassComponent\" config { name: \"p\" config_file_path: \"p.conf\" \
            readers { channel: \"@timer/t\" } } } }",
            &["out: \"/o\"", "out: \"/\\n\" on_overflow: OLDEST"],
            "component \"p\" class PassComponent reads \"@timer/t\" queue 1 writes \"/o\"\n\
            timer \"t\" class CountComponent every 20 ms writes \"/\\n\"\n\
            context \"default_grp\" processors 2 order \"p\" \"t\"\n\
            unknown s.conf scheduler_conf.depth\nok\n",
        ),
        (
            "module_config { components { class_name: \"ExternalComponent\" \
            config { name: \"e\" config_file_path: \"e\" readers { channel: \"/a\" } } } \
            timer_components { class_name: \"ExternalComponent\" \
            config { name: \"t\" config_file_path: \"t\" interval: 20 } } }",
            &[
                "out: \"/o\" answers: \"a\\n\" on_overflow: OLDEST",
                "out: \"/q\" answers: \"b.rec\"",
            ],
            "component \"e\" class ExternalComponent reads \"/a\" queue 1 writes \"/o\" \
            overflow OLDEST answers \"a\\n\" 0\n\
            timer \"t\" class ExternalComponent every 20 ms writes \"/q\" answers \"b.rec\" 0\n\
            context \"default_grp\" processors 2 order \"e\" \"t\"\n\
            unknown s.conf scheduler_conf.depth\nok\n",
        ),
        (
            "module_config { components { class_name: \"PassComponent\" \
            config { name: \"p\" config_file_path: \"p\" readers { channel: \"/a\" } } } \
            timer_components { class_name: \"CountComponent\" \
            config { name: \"t\" config_file_path: \"t\" interval: 20 } } }",
            &[
                "value { channel: \"/\\n\" path: [1, 536870911, 3] kind: DOUBLE \
                scale: 10000000000000000000 } out: \"/o\" \
                value { channel: \"/a\" path: 7 kind: SFIXED32 }",
                "out: \"/q\" value { channel: \"/b\" path: 2 path: 4 kind: FLOAT scale: 1 }",
            ],
            "component \"p\" class PassComponent reads \"/a\" queue 1 writes \"/o\"\n\
            value \"/\\n\" path 1 536870911 3 kind DOUBLE scale 10000000000000000000\n\
            value \"/a\" path 7 kind SFIXED32 scale 1\n\
            timer \"t\" class CountComponent every 20 ms writes \"/q\"\n\
            value \"/b\" path 2 4 kind FLOAT scale 1\n\
            context \"default_grp\" processors 2 order \"p\" \"t\"\n\
            unknown s.conf scheduler_conf.depth\nok\n",
        ),
    ] {
        let text = told(&rt, dag, files)?;
        assert_eq!(rt; text.as_str(), want);
    }
    Ok(())
}
