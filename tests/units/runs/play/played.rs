// Play lists, written row by row, and placements.
use cy_msg::{ContextPlan, Items, Placement, PlayList, Text, Token};
use std::test::Fail;

/// A message: its channel, its time, and the whole number that it stands for.
pub(crate) type Message = (u32, u64, Option<i64>);

// How many messages stand on a channel.
fn count_on(tokens: &[Token], channel: u32) -> u32 {
    let mut count = 0;
    for token in tokens {
        if token.channel == channel {
            count += 1;
        }
    }
    count
}

// A message behind others.
fn next(tokens: &[Token], message: &Message) -> Token {
    let (channel, time, whole) = *message;
    Token {
        channel,
        seq: count_on(tokens, channel) + 1,
        time,
        whole,
        origin: Some(tokens.len() as u32),
    }
}

/// The play list of some messages, whose times rise.
pub(crate) fn list(rt: &HostRuntime, messages: &[Message]) -> Result<PlayList, Fail> {
    let mut tokens = Vec::new(rt.alloc());
    let mut places = Vec::new(rt.alloc());
    for (place, message) in messages.iter().enumerate() {
        tokens.push(next(&tokens, message))?;
        places.push(place as u32)?;
    }
    Ok(PlayList {
        tokens: Items::new(tokens),
        places: Items::new(places),
        shadowed: 0,
    })
}

/// How many messages a list has on each of so many channels.
pub(crate) fn counts(rt: &HostRuntime, channels: u32, tokens: &[Token]) -> Result<Vec<u32>, Fail> {
    let mut counts = Vec::new(rt.alloc());
    for channel in 0..channels {
        counts.push(count_on(tokens, channel))?;
    }
    Ok(counts)
}

// One context, with components in this order.
fn context(rt: &HostRuntime, order: &[u32]) -> Result<Placement, Fail> {
    let context = ContextPlan {
        name: Text::new(rt.alloc(), "default_grp")?,
        pinned: false,
        processors: 1,
        order: Items::new(Vec::from_slice(rt.alloc(), order)?),
    };
    Ok(Placement::new(Items::new(vec![in rt.alloc(); context]?)))
}

/// One or two components in one context, in the order of their numbers or in the other one.
pub(crate) fn placed(rt: &HostRuntime, size: usize, backwards: bool) -> Result<Placement, Fail> {
    match (size, backwards) {
        (1, _) => context(rt, &[0]),
        (2, false) => context(rt, &[0, 1]),
        (2, true) => context(rt, &[1, 0]),
        _ => Err(Fail::from("one or two components")),
    }
}

/// Two contexts, for components 0 and 1: the first with so many processors, the second with one.
pub(crate) fn crowded(rt: &HostRuntime, processors: u32) -> Result<Placement, Fail> {
    let first = ContextPlan {
        name: Text::new(rt.alloc(), "first")?,
        pinned: true,
        processors,
        order: Items::new(vec![in rt.alloc(); 0]?),
    };
    let second = ContextPlan {
        name: Text::new(rt.alloc(), "second")?,
        pinned: true,
        processors: 1,
        order: Items::new(vec![in rt.alloc(); 1]?),
    };
    Ok(Placement::new(Items::new(vec![in rt.alloc(); first, second]?)))
}

/// Two contexts of one processor each.
pub(crate) fn pinned(rt: &HostRuntime) -> Result<Placement, Fail> {
    crowded(rt, 1)
}
