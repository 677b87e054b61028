// What each class answers.
use super::messages::message;
use cy_comp::{Answer, Answers, Body, Component, Kind, Out, Outcome};
use cy_msg::{Bytes, Tuple};
use std::test::Fail;

// The value of an output at once: none where nothing is put out.
fn emitted(outcome: Outcome) -> Option<i64> {
    match outcome {
        Outcome::Emit(Some(out)) => out.whole,
        _ => None,
    }
}

// The values that a component puts out on messages with these, one after another.
fn values_on(rt: &HostRuntime, kind: Kind, values: &[i64]) -> Result<Vec<Option<i64>>, Fail> {
    let mut body = Body::new(rt.alloc(), &kind)?;
    let mut answers = Vec::new(rt.alloc());
    for value in values {
        let tuple = Tuple::One(message(0, 1, 50, Some(*value)));
        answers.push(emitted(body.step(&tuple)))?;
    }
    Ok(answers)
}

#[test]
fn answers_to_a_row_of_values(rt: HostRuntime) -> Result<(), Fail> {
    const LEAST: i64 = i64::MIN;
    const MOST: i64 = i64::MAX;
    let window = values_on(&rt, Kind::Window { n: 2 }, &[5, -3, 10])?;
    assert_eq!(rt; window.as_slice(), [Some(5), Some(2), Some(7)].as_slice());
    let single = values_on(&rt, Kind::Window { n: 1 }, &[LEAST, MOST, 3])?;
    assert_eq!(rt;
        single.as_slice(),
        [Some(LEAST), Some(MOST), Some(3)].as_slice()
    );
    let wide = values_on(
        &rt,
        Kind::Window { n: 3 },
        &[MOST, MOST, LEAST, LEAST, LEAST],
    )?;
    let held = [
        Some(MOST),
        Some(MOST),
        Some(MOST - 1),
        Some(LEAST),
        Some(LEAST),
    ];
    assert_eq!(rt; wide.as_slice(), held.as_slice());
    let change = values_on(&rt, Kind::Change, &[1, 1, 2, 1])?;
    assert_eq!(rt;
        change.as_slice(),
        [Some(1), None, Some(2), Some(1)].as_slice()
    );
    let max = values_on(&rt, Kind::Max, &[3, 1, 4])?;
    assert_eq!(rt; max.as_slice(), [Some(3), Some(3), Some(4)].as_slice());
    let borders = values_on(&rt, Kind::Max, &[LEAST, MOST, LEAST])?;
    assert_eq!(rt;
        borders.as_slice(),
        [Some(LEAST), Some(MOST), Some(MOST)].as_slice()
    );
    let filter = values_on(&rt, Kind::Filter { lo: 1, hi: 3 }, &[0, 1, 3, 4])?;
    assert_eq!(rt;
        filter.as_slice(),
        [None, Some(1), Some(3), None].as_slice()
    );
    let all = values_on(
        &rt,
        Kind::Filter {
            lo: LEAST,
            hi: MOST,
        },
        &[LEAST, MOST],
    )?;
    assert_eq!(rt; all.as_slice(), [Some(LEAST), Some(MOST)].as_slice());
    let count = values_on(&rt, Kind::Count, &[9, 9, 9])?;
    assert_eq!(rt; count.as_slice(), [Some(1), Some(2), Some(3)].as_slice());
    let pass = values_on(&rt, Kind::Pass, &[9, -9])?;
    assert_eq!(rt; pass.as_slice(), [Some(9), Some(-9)].as_slice());
    Ok(())
}

#[test]
fn sums_the_last_4096_values(rt: HostRuntime) -> Result<(), Fail> {
    let mut body = Body::new(rt.alloc(), &Kind::Window { n: 4096 })?;
    let mut last = None;
    for value in 1..5001i64 {
        last = emitted(body.step(&Tuple::One(message(0, 1, 50, Some(value)))));
    }
    // The numbers from 905 to 5000.
    assert_eq!(rt; last, Some(12_093_440));
    Ok(())
}

#[test]
fn passes_a_message_with_its_content(rt: HostRuntime) -> Result<(), Fail> {
    let given = message(3, 4, 60, Some(-25));
    let want = Out {
        time: 60,
        whole: Some(-25),
        origin: Some(7),
    };
    let valueless = Out {
        whole: None,
        ..want
    };
    let other = message(4, 1, 10, Some(1));
    for tuple in [
        Tuple::One(given),
        Tuple::Two(given, other),
        Tuple::Three(given, other, other),
        Tuple::Four(given, other, other, other),
    ] {
        let mut body = Body::new(rt.alloc(), &Kind::Pass)?;
        assert_eq!(rt; body.step(&tuple), Outcome::Emit(Some(want)));
    }
    let mut body = Body::new(rt.alloc(), &Kind::Pass)?;
    let tuple = Tuple::One(message(3, 4, 60, None));
    assert_eq!(rt; body.step(&tuple), Outcome::Emit(Some(valueless)));
    Ok(())
}

#[test]
fn sums_what_fits_and_holds_the_rest(rt: HostRuntime) -> Result<(), Fail> {
    let one = message(1, 1, 1, Some(1));
    let most = message(0, 1, 2, Some(i64::MAX));
    let least = message(0, 1, 2, Some(i64::MIN));
    let none = message(0, 2, 3, None);
    let sum = |whole: i64| Outcome::Emit(Some(Out {
        time: 2,
        whole: Some(whole),
        origin: None,
    }));
    for (tuple, want) in [
        (Tuple::One(most), sum(i64::MAX)),
        (Tuple::Two(most, one), sum(i64::MAX)),
        (Tuple::Three(most, one, least), sum(0)),
        (Tuple::Four(least, least, most, most), sum(-2)),
        (Tuple::Four(least, least, least, one), sum(i64::MIN)),
        (Tuple::Two(none, one), Outcome::Emit(None)),
        (Tuple::Two(one, none), Outcome::Emit(None)),
    ] {
        let mut body = Body::new(rt.alloc(), &Kind::Sum)?;
        assert_eq!(rt; body.step(&tuple), want);
    }
    Ok(())
}

#[test]
fn selects_by_the_first_value(rt: HostRuntime) -> Result<(), Fail> {
    let mut body = Body::new(rt.alloc(), &Kind::Select)?;
    let p = message(1, 1, 1, Some(8));
    let q = message(2, 1, 2, Some(9));
    for (time, whole, want) in [
        (3, Some(0), Some((3, Some(8)))),
        (4, Some(5), Some((4, Some(9)))),
        (5, Some(-1), Some((5, Some(9)))),
        (6, None, None),
    ] {
        let outcome = body.step(&Tuple::Three(message(0, 1, time, whole), p, q));
        let answer = match outcome {
            Outcome::Emit(Some(out)) => Some((out.time, out.whole)),
            _ => None,
        };
        assert_eq!(rt; answer, want, "at time {time}");
    }
    Ok(())
}

#[test]
fn answers_nothing_where_a_value_is_missing(rt: HostRuntime) -> Result<(), Fail> {
    let valueless = Tuple::One(message(0, 1, 50, None));
    let valued = Tuple::One(message(0, 2, 60, Some(4)));
    for (kind, later) in [
        (Kind::Filter { lo: 0, hi: 9 }, Some(4)),
        (Kind::Sum, Some(4)),
        (Kind::Max, Some(4)),
        (Kind::Window { n: 2 }, Some(8)),
        (Kind::Change, None),
    ] {
        let mut body = Body::new(rt.alloc(), &kind)?;
        assert_eq!(rt; emitted(body.step(&valued)), Some(4));
        assert_eq!(rt; body.step(&valueless), Outcome::Emit(None));
        assert_eq!(rt; emitted(body.step(&valued)), later);
    }
    Ok(())
}

#[test]
fn holds_until_the_time_plus_the_delay(rt: HostRuntime) -> Result<(), Fail> {
    for (time, delay, until) in [
        (10, 100, 110),
        (0, 0, 0),
        (1, u64::MAX, u64::MAX - 1),
        (0, u64::MAX, u64::MAX - 1),
        (u64::MAX, 0, u64::MAX - 1),
        (u64::MAX - 1, 0, u64::MAX - 1),
    ] {
        let mut body = Body::new(rt.alloc(), &Kind::Hold { delay })?;
        let outcome = body.step(&Tuple::One(message(0, 1, time, Some(3))));
        let out = Out {
            time: until,
            whole: Some(3),
            origin: Some(7),
        };
        assert_eq!(rt;
            outcome,
            Outcome::Hold { until, out },
            "from {time} by {delay}"
        );
    }
    Ok(())
}

#[test]
fn takes_no_more_than_so_many(rt: HostRuntime) -> Result<(), Fail> {
    let tuple = Tuple::One(message(0, 1, 50, None));
    let out = Out {
        time: 50,
        whole: None,
        origin: Some(7),
    };
    let mut single = Body::new(rt.alloc(), &Kind::Take { n: 1 })?;
    assert_eq!(rt; single.step(&tuple), Outcome::Last(Some(out)));
    let mut pair = Body::new(rt.alloc(), &Kind::Take { n: 2 })?;
    assert_eq!(rt; pair.step(&tuple), Outcome::Emit(Some(out)));
    assert_eq!(rt; pair.step(&tuple), Outcome::Last(Some(out)));
    Ok(())
}

// A class that has answers to its first, third and fourth call.
fn external(rt: &HostRuntime) -> Result<Kind, Fail> {
    let mut answers = Vec::new(rt.alloc());
    for (call, whole, origin) in [
        (1, Some(8), 4_194_304),
        (3, None, 4_194_305),
        (4, Some(-5), 4_194_306),
    ] {
        answers.push(Answer {
            call,
            whole,
            origin,
            content: Bytes::new(rt.alloc(), b"C")?,
        })?;
    }
    Ok(Kind::External {
        answers: Answers::new(answers)?,
    })
}

#[test]
fn puts_out_the_answers_to_its_calls(rt: HostRuntime) -> Result<(), Fail> {
    let kind = external(&rt)?;
    for kind in [kind.copy()?, kind] {
        let mut body = Body::new(rt.alloc(), &kind)?;
        for (time, want) in [
            (10, Some((Some(8), 4_194_304))),
            (20, None),
            (20, Some((None, 4_194_305))),
            (35, Some((Some(-5), 4_194_306))),
            (40, None),
        ] {
            let first = message(0, 1, time, Some(3));
            let second = message(1, 1, time + 5, None);
            let out = want.map(|(whole, origin)| Out {
                time,
                whole,
                origin: Some(origin),
            });
            let outcome = body.step(&Tuple::Two(first, second));
            assert_eq!(rt; outcome, Outcome::Emit(out), "at time {time}");
        }
    }
    Ok(())
}
