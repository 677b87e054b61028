// The way of a message: it is played, and the component is taken, stepped and given back.
use cy_comp::{Outcome, State};
use cy_msg::{Token, Tuple};
use cy_table::{Busy, FlagTable, Hold, Pass};
use std::sync::Wait;

/// The player plays a message, the next one of channel 0, for the only reader of that channel.
pub(crate) fn play<R: Wait>(rt: &R, table: &FlagTable, player: &mut Pass, token: Token) {
    table.tick(player, token.time);
    table.tape(rt, player, token);
    table.fill(rt, player, 0, 0, token);
    table.look_and_clear(player, 0);
}

/// Takes component 0 and updates it; none where it was found held.
pub(crate) fn take(table: &FlagTable, pass: &mut Pass) -> Option<(Hold, State)> {
    match table.acquire(pass, 0) {
        Ok(mut hold) => {
            let state = table.update(pass, &mut hold);
            Some((hold, state))
        }
        Err(Busy) => None,
    }
}

// Stores what the component in hand, which was stepped, is to do next, and gives it back.
fn put_back(table: &FlagTable, pass: &mut Pass, mut hold: Hold, next: State) {
    table.yield_as(pass, &mut hold, next);
    table.release(pass, hold);
}

// Sends the output of the component in hand, where one waits that is not held back.
fn send_output<R: Wait>(
    rt: &R,
    table: &FlagTable,
    pass: &mut Pass,
    hold: &mut Hold,
) -> Option<Token> {
    match hold.token() {
        Some(_) => Some(table.send(rt, pass, hold)),
        None => None,
    }
}

// Steps the component in hand on what it fetched, sends its output, and gives it back.
fn follow<R: Wait>(
    rt: &R,
    table: &FlagTable,
    pass: &mut Pass,
    mut hold: Hold,
    tuple: &Tuple,
) -> Option<Token> {
    match hold.step(tuple) {
        Outcome::Hold { until, .. } => {
            put_back(table, pass, hold, State::Sleep { until });
            None
        }
        Outcome::Emit(_) => {
            let sent = send_output(rt, table, pass, &mut hold);
            put_back(table, pass, hold, State::Ready);
            sent
        }
        Outcome::Last(_) => {
            let sent = send_output(rt, table, pass, &mut hold);
            put_back(table, pass, hold, State::Finished);
            sent
        }
    }
}

/// Resumes component 0, which is READY: what it fetched, and what it sent. Where it is stopped it
/// ends.
pub(crate) fn resume<R: Wait>(
    rt: &R,
    table: &FlagTable,
    pass: &mut Pass,
    mut hold: Hold,
) -> Option<(Tuple, Option<Token>)> {
    if table.resume(pass, &mut hold) {
        put_back(table, pass, hold, State::Finished);
        return None;
    }
    table.ask(pass, &mut hold);
    match table.fetch(rt, pass, &mut hold) {
        Some(tuple) => Some((tuple, follow(rt, table, pass, hold, &tuple))),
        None => {
            table.yield_as(pass, &mut hold, State::DataWait);
            table.release(pass, hold);
            None
        }
    }
}

/// What taking component 0 came to: its state after the update, and where that is READY and no
/// output waits, what it fetched and sent.
pub(crate) fn turn<R: Wait>(
    rt: &R,
    table: &FlagTable,
    pass: &mut Pass,
) -> Option<(State, Option<(Tuple, Option<Token>)>)> {
    let (hold, state) = take(table, pass)?;
    let turned = match (state, hold.token()) {
        (State::Ready, None) => resume(rt, table, pass, hold),
        _ => {
            table.release(pass, hold);
            None
        }
    };
    Some((state, turned))
}
