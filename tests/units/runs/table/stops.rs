// The player's words for the end of a run: the stop, and that all was played.
use super::doors::message;
use super::tables::table_with;
use super::walk::{play, turn};
use cy_comp::State;
use cy_msg::Stop;
use std::test::Fail;

// The stop is raised behind the only message. The component, which is READY, ends without a call.
#[test]
fn ends_without_a_call_once_the_stop_is_raised(rt: HostRuntime) -> Result<(), Fail> {
    let stop = Stop {
        component: 0,
        after: 1,
    };
    let (table, mut player) = table_with(&rt, 1, 1, Some(stop))?;
    let mut other = table.split(&mut player)?;
    play(&rt, &table, &mut player, message());
    table.raise(&mut player);
    assert!(rt; !table.closing(&mut other));
    table.set_closing(&mut player);
    assert!(rt; table.closing(&mut other));
    assert_eq!(rt; turn(&rt, &table, &mut other), Some((State::Ready, None)));
    table.join(&mut player, other);
    let world = table.close(rt.alloc(), player)?;
    assert_eq!(rt; world.routine(0).state(), State::Finished);
    assert_eq!(rt; world.routine(0).calls().len(), 0);
    assert_eq!(rt; world.tape_list(), [message()].as_slice());
    assert!(rt; world.closing());
    Ok(())
}
