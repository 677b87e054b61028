// Buffers, cursors and visitors.
use super::messages::message;
use cy_fuse::{CacheBuffer, Cursor, Overflow, Visitor, fetch_at};
use cy_msg::{Token, Tuple};
use std::test::Fail;

#[test]
fn fetches_an_item_that_is_kept(rt: HostRuntime) {
    for (index, tail, queue, newest, oldest) in [
        (3, 5, 3, Some(3), Some(3)),
        (2, 5, 3, Some(5), Some(3)),
        (1, 5, 3, Some(5), Some(3)),
        (0, 5, 3, Some(5), Some(5)),
        (5, 5, 3, Some(5), Some(5)),
        (6, 5, 3, None, None),
        (1, 2, 3, Some(1), Some(1)),
        (1, 3, 3, Some(1), Some(1)),
        (1, 4, 3, Some(4), Some(2)),
        (0, 0, 3, None, None),
        (1, 0, 3, None, None),
        (9, 0, 1, None, None),
        (0, 1, 1, Some(1), Some(1)),
        (1, 1, 1, Some(1), Some(1)),
        (4, 5, 1, Some(5), Some(5)),
        (5, 5, 1, Some(5), Some(5)),
        (6, 5, 1, None, None),
    ] {
        for (overflow, want) in [(Overflow::Newest, newest), (Overflow::Oldest, oldest)] {
            assert_eq!(rt;
                fetch_at(index, tail, queue, overflow),
                want,
                "index {index}, tail {tail}, queue {queue}, {overflow:?}"
            );
        }
    }
}

#[test]
fn keeps_the_last_three_of_five(rt: HostRuntime) -> Result<(), Fail> {
    let mut buffer = CacheBuffer::with_size(rt.alloc(), 3)?;
    buffer.fill(10);
    buffer.fill(20);
    buffer.fill(30);
    buffer.fill(40);
    buffer.fill(50);
    assert_eq!(rt;
        (buffer.tail(), buffer.oldest(), buffer.latest()),
        (5, 3, Some(50))
    );
    for (number, want) in [
        (0, None),
        (2, None),
        (3, Some(30)),
        (4, Some(40)),
        (5, Some(50)),
        (6, None),
    ] {
        assert_eq!(rt; buffer.at(number), want, "number {number}");
    }
    for (index, overflow, want, next) in [
        (0, Overflow::Newest, Some((50, 5)), 6),
        (2, Overflow::Newest, Some((50, 5)), 6),
        (3, Overflow::Newest, Some((30, 3)), 4),
        (5, Overflow::Newest, Some((50, 5)), 6),
        (6, Overflow::Newest, None, 6),
        (7, Overflow::Newest, None, 7),
        (0, Overflow::Oldest, Some((50, 5)), 6),
        (1, Overflow::Oldest, Some((30, 3)), 4),
        (2, Overflow::Oldest, Some((30, 3)), 4),
        (3, Overflow::Oldest, Some((30, 3)), 4),
        (4, Overflow::Oldest, Some((40, 4)), 5),
        (6, Overflow::Oldest, None, 6),
        (7, Overflow::Oldest, None, 7),
    ] {
        let mut cursor = Cursor::at(index);
        assert_eq!(rt;
            cursor.fetch(&buffer, overflow),
            want,
            "index {index}, {overflow:?}"
        );
        assert_eq!(rt; cursor.next(), next, "behind index {index}, {overflow:?}");
    }
    Ok(())
}

#[test]
fn has_nothing_before_the_first_fill(rt: HostRuntime) -> Result<(), Fail> {
    let buffer: CacheBuffer<u8> = CacheBuffer::with_size(rt.alloc(), 1)?;
    assert_eq!(rt;
        (buffer.tail(), buffer.oldest(), buffer.latest()),
        (0, 1, None)
    );
    for index in [0, 1, 2, u64::MAX] {
        let mut cursor = Cursor::at(index);
        assert_eq!(rt;
            cursor.fetch(&buffer, Overflow::Oldest),
            None,
            "index {index}"
        );
        assert_eq!(rt; cursor, Cursor::at(index), "index {index}");
    }
    Ok(())
}

// Message k of a role's channel.
fn arrival(role: u32, seq: u32) -> Token {
    message(role, seq, 100 * u64::from(seq), Some(i64::from(seq)))
}

#[test]
fn goes_on_with_the_newest_tuple_after_an_overflow(rt: HostRuntime) -> Result<(), Fail> {
    let mut visitor = Visitor::prepare(rt.alloc(), 2, 2, Overflow::Newest, 8)?;
    let mut cursor = Cursor::new();
    visitor.arrive(1, arrival(1, 1));
    visitor.arrive(0, arrival(0, 1));
    visitor.arrive(0, arrival(0, 2));
    visitor.arrive(0, arrival(0, 3));
    let third = Tuple::Two(arrival(0, 3), arrival(1, 1));
    assert_eq!(rt; visitor.try_fetch(&mut cursor), Some((third, 3, 3)));
    assert_eq!(rt; visitor.try_fetch(&mut cursor), None);
    visitor.arrive(0, arrival(0, 4));
    let fourth = Tuple::Two(arrival(0, 4), arrival(1, 1));
    assert_eq!(rt; visitor.try_fetch(&mut cursor), Some((fourth, 4, 4)));
    visitor.arrive(0, arrival(0, 5));
    visitor.arrive(0, arrival(0, 6));
    visitor.arrive(0, arrival(0, 7));
    let seventh = Tuple::Two(arrival(0, 7), arrival(1, 1));
    assert_eq!(rt; visitor.try_fetch(&mut cursor), Some((seventh, 7, 7)));
    assert_eq!(rt; (cursor.next(), visitor.spare()), (8, 0));
    Ok(())
}

// The tuple of message k of the only reader.
fn only(k: u32) -> Tuple {
    Tuple::One(arrival(0, k))
}

#[test]
fn goes_on_with_the_oldest_tuple_that_is_kept(rt: HostRuntime) -> Result<(), Fail> {
    let mut visitor = Visitor::prepare(rt.alloc(), 2, 1, Overflow::Oldest, 6)?;
    let mut cursor = Cursor::new();
    visitor.arrive(0, arrival(0, 1));
    assert_eq!(rt; visitor.try_fetch(&mut cursor), Some((only(1), 1, 1)));
    for k in 2..7u32 {
        visitor.arrive(0, arrival(0, k));
    }
    assert!(rt; visitor.finds(cursor));
    assert_eq!(rt; visitor.try_fetch(&mut cursor), Some((only(5), 5, 6)));
    assert_eq!(rt;
        visitor.try_fetch_one(&mut cursor),
        Some((arrival(0, 6), 6, 6))
    );
    assert_eq!(rt; visitor.try_fetch(&mut cursor), None);
    assert!(rt; !visitor.finds(cursor));
    Ok(())
}

#[test]
fn joins_the_latest_of_each_other_reader(rt: HostRuntime) -> Result<(), Fail> {
    let mut visitor = Visitor::prepare(rt.alloc(), 4, 4, Overflow::Newest, 7)?;
    let mut cursor = Cursor::new();
    visitor.arrive(1, arrival(1, 1));
    visitor.arrive(2, arrival(2, 1));
    visitor.arrive(0, arrival(0, 1));
    assert_eq!(rt; visitor.try_fetch(&mut cursor), None);
    visitor.arrive(3, arrival(3, 1));
    assert_eq!(rt; visitor.try_fetch(&mut cursor), None);
    visitor.arrive(2, arrival(2, 2));
    visitor.arrive(0, arrival(0, 2));
    visitor.arrive(1, arrival(1, 2));
    let fused = Tuple::Four(arrival(0, 2), arrival(1, 1), arrival(2, 2), arrival(3, 1));
    assert_eq!(rt; visitor.try_fetch(&mut cursor), Some((fused, 1, 1)));
    assert_eq!(rt; visitor.try_fetch(&mut cursor), None);
    assert_eq!(rt; visitor.arrival_count(), 7);
    assert_eq!(rt; visitor.arrival_roles(), [1, 2, 0, 3, 2, 0, 1].as_slice());
    Ok(())
}
