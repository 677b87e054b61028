// The timers of a wiring, and their ticks among messages.
use super::played::{Message, list};
use super::wired::ticked;
use cy_msg::Token;
use cy_timer::{Timer, TimerError, merge, tick_count, timers};
use std::test::Fail;

// A channel, a number on it, a time in microseconds, a value, and where the content comes from.
type Row = (u32, u32, u64, Option<i64>, Option<u32>);

fn token(row: &Row) -> Token {
    let (channel, seq, microseconds, whole, origin) = *row;
    Token {
        channel,
        seq,
        time: microseconds * 1_000,
        whole,
        origin,
    }
}

// What is merged of some messages and timers, row by row.
#[derive(Drop)]
struct Merged<'a> {
    messages: &'a [Message],
    timers: &'a [(u32, u32)],
    all: &'a [Row],
}

fn timers_of(rt: &HostRuntime, rows: &[(u32, u32)]) -> Result<Vec<Timer>, Fail> {
    let mut timers = Vec::new(rt.alloc());
    for (channel, interval) in rows {
        timers.push(Timer {
            channel: *channel,
            interval: *interval,
        })?;
    }
    Ok(timers)
}

// The tokens of some rows.
fn tokens_of(rt: &HostRuntime, rows: &[Row]) -> Result<Vec<Token>, Fail> {
    let mut tokens = Vec::new(rt.alloc());
    for row in rows {
        tokens.push(token(row))?;
    }
    Ok(tokens)
}

// Between messages that stand at no multiple of the interval, at the times of messages, with two
// timers at one time, and where there is no message.
#[test]
fn puts_ticks_behind_messages_of_their_time(rt: HostRuntime) -> Result<(), Fail> {
    let rows = [
        Merged {
            messages: &[(0, 1_500_000, Some(1)), (0, 4_000_000, Some(2))],
            timers: &[(1, 1)],
            all: &[
                (0, 1, 1_500, Some(1), Some(0)),
                (1, 1, 2_000, Some(1), None),
                (1, 2, 3_000, Some(2), None),
                (0, 2, 4_000, Some(2), Some(1)),
                (1, 3, 4_000, Some(3), None),
            ],
        },
        Merged {
            messages: &[(2, 0, None), (2, 0, Some(5)), (0, 6_000_000, Some(7))],
            timers: &[(3, 3), (1, 2)],
            all: &[
                (2, 1, 0, None, Some(0)),
                (2, 2, 0, Some(5), Some(1)),
                (3, 1, 0, Some(1), None),
                (1, 1, 0, Some(1), None),
                (1, 2, 2_000, Some(2), None),
                (3, 2, 3_000, Some(2), None),
                (1, 3, 4_000, Some(3), None),
                (0, 1, 6_000, Some(7), Some(2)),
                (3, 3, 6_000, Some(3), None),
                (1, 4, 6_000, Some(4), None),
            ],
        },
        Merged {
            messages: &[],
            timers: &[(0, 1), (1, 4_294_967_295)],
            all: &[],
        },
        Merged {
            messages: &[(0, 7_000_000, None)],
            timers: &[],
            all: &[(0, 1, 7_000, None, Some(0))],
        },
    ];
    for row in &rows {
        let messages = list(&rt, row.messages)?;
        let all = merge(rt.alloc(), &messages, &timers_of(&rt, row.timers)?)?;
        assert_eq!(rt; all.tokens.as_slice(), tokens_of(&rt, row.all)?.as_slice());
        assert_eq!(rt; all.places.as_slice(), messages.places.as_slice());
    }
    Ok(())
}

#[test]
fn keeps_how_many_are_shadowed(rt: HostRuntime) -> Result<(), Fail> {
    let mut messages = list(&rt, &[(0, 1_500_000, Some(1))])?;
    messages.shadowed = 6;
    let all = merge(rt.alloc(), &messages, &timers_of(&rt, &[(1, 1)])?)?;
    assert_eq!(rt; all.shadowed, 6);
    Ok(())
}

// At 0, at multiples and beside them, and up to the greatest time.
#[test]
fn counts_the_multiples_of_an_interval(rt: HostRuntime) -> Result<(), Fail> {
    for (interval, begin, end, count) in [
        (1u32, 0u64, 0u64, 1u64),
        (1, 1, 999_999, 0),
        (1, 1, 1_000_000, 1),
        (1, 1_000_000, 1_000_000, 1),
        (1, 1_500_000, 4_000_000, 3),
        (1, 0, 9_223_372_036_854_775_808, 9_223_372_036_855),
        (1, 0, 18_446_744_073_709_551_615, 18_446_744_073_710),
        (4_294_967_295, 0, 18_446_744_073_709_551_615, 4_295),
        (4_294_967_295, 18_446_744_073_709_551_615, 18_446_744_073_709_551_615, 0),
    ] {
        assert_eq!(rt; tick_count(interval, begin, end), count);
    }
    Ok(())
}

#[test]
fn refuses_more_than_are_played(rt: HostRuntime) -> Result<(), Fail> {
    for (last, count) in [
        (4_194_302_000_000u64, 4_194_305u64),
        (9_223_372_036_854_775_808, 9_223_372_036_857),
    ] {
        let messages = list(&rt, &[(0, 0, Some(1)), (0, last, Some(1))])?;
        let timers = timers_of(&rt, &[(1, 1)])?;
        let refused = merge(rt.alloc(), &messages, &timers).err();
        assert_eq!(rt; refused, Some(TimerError::TooManyPlayed { count }));
    }
    Ok(())
}

#[test]
fn tells_the_timers_of_components(rt: HostRuntime) -> Result<(), Fail> {
    let wiring = ticked(&rt, &[None, Some(20), None, Some(5)])?;
    let found = timers(rt.alloc(), &wiring)?;
    let wanted = timers_of(&rt, &[(1, 20), (3, 5)])?;
    assert_eq!(rt; found.as_slice(), wanted.as_slice());
    Ok(())
}
