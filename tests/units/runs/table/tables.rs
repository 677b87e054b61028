// A table of one component.
use cy_comp::{Kind, Options, Plan, Wiring};
use cy_fuse::Overflow;
use cy_msg::{Items, Names, Stop, Text};
use cy_table::{FlagTable, Pass};
use std::test::Fail;
use wake_core::World;

/// A component that passes /a on to /o, and keeps so many messages.
pub(crate) fn pass_wiring(rt: &HostRuntime, queue: u32) -> Result<Wiring, Fail> {
    let mut names = Names::new(rt.alloc());
    names.add(rt.alloc(), "/a")?;
    names.add(rt.alloc(), "/o")?;
    let plan = Plan {
        name: Text::new(rt.alloc(), "pass")?,
        kind: Kind::Pass,
        readers: Items::new(vec![in rt.alloc(); 0]?),
        queue,
        overflow: Overflow::Newest,
        out: 1,
        options: Options::with_type(rt.alloc(), "T")?,
        interval: None,
    };
    Ok(Wiring::of_one(names, Items::new(vec![in rt.alloc(); plan]?)))
}

/// The table of that component for so many messages of /a, with a stop or none, and the player's
/// pass.
pub(crate) fn table_with(
    rt: &HostRuntime,
    queue: u32,
    count: u32,
    stop: Option<Stop>,
) -> Result<(FlagTable, Pass), Fail> {
    let wiring = pass_wiring(rt, queue)?;
    let world = World::new(rt.alloc(), &wiring, &[count, 0], stop)?;
    Ok(FlagTable::new(rt.alloc(), world)?)
}

/// The same for a component that keeps one message, without a stop.
pub(crate) fn table_of_one(rt: &HostRuntime, count: u32) -> Result<(FlagTable, Pass), Fail> {
    table_with(rt, 1, count, None)
}
