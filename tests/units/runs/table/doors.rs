// A message that is played, fetched and passed on behind the doors, and a component that parks.
use super::holds::take_beside;
use super::tables::table_of_one;
use super::walk::{play, turn};
use cy_comp::State;
use cy_msg::{Token, Tuple};
use std::test::Fail;

/// A message of /a at the time 1.
pub(crate) fn message() -> Token {
    Token {
        channel: 0,
        seq: 1,
        time: 1,
        whole: Some(1),
        origin: Some(0),
    }
}

#[test]
fn passes_a_message_on_behind_the_doors(rt: HostRuntime) -> Result<(), Fail> {
    let (table, mut player) = table_of_one(&rt, 1)?;
    play(&rt, &table, &mut player, message());
    let mut other = table.split(&mut player)?;
    let passed = Token {
        channel: 1,
        ..message()
    };
    assert_eq!(rt;
        turn(&rt, &table, &mut other),
        Some((State::Ready, Some((Tuple::One(message()), Some(passed)))))
    );
    table.join(&mut player, other);
    let world = table.close(rt.alloc(), player)?;
    assert_eq!(rt; world.tape_list(), [message(), passed].as_slice());
    let calls = world.routine(0).calls();
    assert!(rt; calls.map(|call| (call.position, call.tail)).eq([(1, 1)]));
    assert_eq!(rt; world.clock(), 1);
    Ok(())
}

#[test]
fn parks_where_nothing_is_found(rt: HostRuntime) -> Result<(), Fail> {
    let (table, mut player) = table_of_one(&rt, 1)?;
    let mut other = table.split(&mut player)?;
    assert_eq!(rt;
        take_beside(&table, &mut player, &mut other),
        Some((State::Ready, true))
    );
    assert_eq!(rt; turn(&rt, &table, &mut other), Some((State::Ready, None)));
    assert_eq!(rt;
        turn(&rt, &table, &mut other),
        Some((State::DataWait, None))
    );
    table.join(&mut player, other);
    let world = table.close(rt.alloc(), player)?;
    assert_eq!(rt; world.routine(0).state(), State::DataWait);
    assert!(rt; world.spent(0));
    assert_eq!(rt; world.routine(0).calls().len(), 0);
    assert_eq!(rt; (world.tape_list().len(), world.arrival_roles(0).len()), (0, 0));
    assert_eq!(rt; (world.clock(), world.closing()), (0, false));
    Ok(())
}
