// Scans of a context beside another pass: one that ends at a croutine, and one in vain.
use super::holds::take_beside;
use super::tables::table_of_one;
use super::walk::resume;
use cy_comp::State;
use cy_ctx::Context;
use cy_msg::{ContextPlan, Items, Text, Token, Tuple};
use cy_table::{FlagTable, Pass};
use std::sync::Wait;
use std::test::Fail;

/// The context of component 0.
pub(crate) fn context_of_one(rt: &HostRuntime) -> Result<Context, Fail> {
    let plan = ContextPlan {
        name: Text::new(rt.alloc(), "default_grp")?,
        pinned: false,
        processors: 1,
        order: Items::new(vec![in rt.alloc(); 0]?),
    };
    Ok(Context::new(rt.alloc(), &plan)?)
}

// What a scan came to: what the component that it took fetched and sent. None where the scan was in
// vain, or an output of the component waits.
fn resume_next<R: Wait>(
    rt: &R,
    table: &FlagTable,
    context: &Context,
    pass: &mut Pass,
) -> Option<Option<(Tuple, Option<Token>)>> {
    let hold = context.next(table, pass)?;
    match hold.token() {
        None => Some(resume(rt, table, pass, hold)),
        Some(_) => {
            table.release(pass, hold);
            None
        }
    }
}

#[test]
fn scans_until_nothing_is_ready(rt: HostRuntime) -> Result<(), Fail> {
    let context = context_of_one(&rt)?;
    let (table, mut player) = table_of_one(&rt, 1)?;
    let mut other = table.split(&mut player)?;
    assert_eq!(rt;
        take_beside(&table, &mut player, &mut other),
        Some((State::Ready, true))
    );
    assert_eq!(rt; resume_next(&rt, &table, &context, &mut other), Some(None));
    assert_eq!(rt; resume_next(&rt, &table, &context, &mut other), None);
    table.join(&mut player, other);
    let world = table.close(rt.alloc(), player)?;
    assert_eq!(rt; world.routine(0).state(), State::DataWait);
    assert!(rt; world.spent(0));
    assert_eq!(rt; world.routine(0).calls().len(), 0);
    assert_eq!(rt; (world.tape_list().len(), world.arrival_roles(0).len()), (0, 0));
    assert_eq!(rt; (world.clock(), world.closing()), (0, false));
    Ok(())
}
