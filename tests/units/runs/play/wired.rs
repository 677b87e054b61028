// Wirings, written row by row.
use cy_comp::{Kind, Options, Plan, Wiring};
use cy_fuse::Overflow;
use cy_msg::{Items, Names, Text};
use std::str;
use std::test::Fail;

// Channels with these names, which are different.
fn names(rt: &HostRuntime, channels: &[&str]) -> Result<Names, Fail> {
    let mut names = Names::new(rt.alloc());
    for channel in channels {
        names.add(rt.alloc(), channel)?;
    }
    Ok(names)
}

// A letter for a row, from `a` on.
fn letter(rt: &HostRuntime, row: u8) -> Result<Text, Fail> {
    let bytes = [b'a' + row];
    Ok(Text::new(rt.alloc(), str::from_utf8(&bytes)?)?)
}

// The component of a row, which writes the next channel behind those that nobody writes.
fn plan(rt: &HostRuntime, inputs: u32, row: u8, kind: Kind, readers: &[u32]) -> Result<Plan, Fail> {
    Ok(Plan {
        name: letter(rt, row)?,
        kind,
        readers: Items::new(Vec::from_slice(rt.alloc(), readers)?),
        queue: 1,
        overflow: Overflow::Newest,
        out: inputs + u32::from(row),
        options: Options::with_type(rt.alloc(), "")?,
        interval: None,
    })
}

// The components of some rows.
fn plans(rt: &HostRuntime, inputs: u32, rows: &[(Kind, &[u32])]) -> Result<Vec<Plan>, Fail> {
    let mut plans = Vec::new(rt.alloc());
    for (row, (kind, readers)) in rows.iter().enumerate() {
        plans.push(plan(rt, inputs, row as u8, kind.copy()?, readers)?)?;
    }
    Ok(plans)
}

/// A wiring of components that are called `a`, `b` and so on: each has a class and reads channels
/// with lower numbers, in rising order; and the last channels are those that they write, in turn.
pub(crate) fn wiring(
    rt: &HostRuntime,
    channels: &[&str],
    rows: &[(Kind, &[u32])],
) -> Result<Wiring, Fail> {
    let names = names(rt, channels)?;
    let plans = plans(rt, (channels.len() - rows.len()) as u32, rows)?;
    Ok(Wiring::new(names, Items::new(plans)))
}

/// A wiring of one or two components, which hold the messages of `/a` back for 100, and keep the
/// last two.
pub(crate) fn holding(rt: &HostRuntime, overflows: &[Overflow]) -> Result<Wiring, Fail> {
    let names = names(rt, &["/a", "/o", "/q"])?;
    let mut plans = Vec::new(rt.alloc());
    for (row, overflow) in overflows.iter().enumerate() {
        let mut plan = plan(rt, 1, row as u8, Kind::Hold { delay: 100 }, &[0])?;
        plan.queue = 2;
        plan.overflow = *overflow;
        plans.push(plan)?;
    }
    Ok(Wiring::new(names, Items::new(plans)))
}

/// A wiring of components that count what they read, each a channel of its own, from 0 on; those
/// with an interval have ticks there.
pub(crate) fn ticked(rt: &HostRuntime, intervals: &[Option<u32>]) -> Result<Wiring, Fail> {
    let names = names(rt, &["/a", "/b", "/c", "/d", "/e", "/f", "/g", "/h"])?;
    let mut plans = Vec::new(rt.alloc());
    for (row, interval) in intervals.iter().enumerate() {
        let mut plan = plan(rt, 4, row as u8, Kind::Count, &[row as u32])?;
        plan.interval = *interval;
        plans.push(plan)?;
    }
    Ok(Wiring::new(names, Items::new(plans)))
}
