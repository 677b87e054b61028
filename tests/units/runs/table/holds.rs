// Two passes, of which one finds the croutine held.
use super::tables::table_of_one;
use super::walk::take;
use cy_comp::State;
use cy_table::{Busy, FlagTable, Pass};
use std::test::Fail;

// Whether component 0 is held by another pass; where not, it is taken and given back.
fn is_busy(table: &FlagTable, pass: &mut Pass) -> bool {
    match table.acquire(pass, 0) {
        Ok(mut hold) => {
            let _state = table.update(pass, &mut hold);
            table.release(pass, hold);
            false
        }
        Err(Busy) => true,
    }
}

/// Takes component 0, and gives it back after the other pass has tried to take it. The state after
/// the update, and whether the other found it held; none where the first one did.
pub(crate) fn take_beside(
    table: &FlagTable,
    first: &mut Pass,
    second: &mut Pass,
) -> Option<(State, bool)> {
    let (hold, state) = take(table, first)?;
    let busy = is_busy(table, second);
    table.release(first, hold);
    Some((state, busy))
}

#[test]
fn finds_a_held_croutine_busy(rt: HostRuntime) -> Result<(), Fail> {
    let (table, mut player) = table_of_one(&rt, 1)?;
    let mut other = table.split(&mut player)?;
    assert_eq!(rt;
        take_beside(&table, &mut player, &mut other),
        Some((State::Ready, true))
    );
    assert!(rt; !is_busy(&table, &mut other));
    table.join(&mut player, other);
    let world = table.close(rt.alloc(), player)?;
    assert_eq!(rt; world.routine(0).state(), State::Ready);
    assert!(rt; world.spent(0));
    assert_eq!(rt; world.routine(0).calls().len(), 0);
    Ok(())
}
