// Vectors of the Protocol Buffers documentation ("Encoding"), and numbers at the ends of their
// ranges.
use cy_wire::{
    WireError, Writer, front_varint, put_whole, whole_bytes, zigzag_number, zigzag_value,
};
use std::test::Fail;

#[test]
fn writes_numbers_as_the_documentation_does(rt: HostRuntime) -> Result<(), Fail> {
    for (number, bytes) in [
        (0, b"\x00".as_slice()),
        (1, b"\x01".as_slice()),
        (127, b"\x7f".as_slice()),
        (128, b"\x80\x01".as_slice()),
        (150, b"\x96\x01".as_slice()),
        (300, b"\xac\x02".as_slice()),
        (
            u64::MAX,
            b"\xff\xff\xff\xff\xff\xff\xff\xff\xff\x01".as_slice(),
        ),
    ] {
        let mut writer = Writer::new(rt.alloc());
        writer.varint(number)?;
        assert_eq!(rt; writer.done(), bytes, "{number}");
        writer.bytes(b"\xff\x00")?;
        assert_eq!(rt;
            front_varint(writer.done()),
            Some((number, bytes.len())),
            "{number}"
        );
    }
    Ok(())
}

#[test]
fn reads_the_number_at_the_front(rt: HostRuntime) {
    for (bytes, want) in [
        (b"".as_slice(), None),
        (b"\x80".as_slice(), None),
        (b"\xff\xff\xff\xff\xff\xff\xff\xff\xff".as_slice(), None),
        (b"\xff\xff\xff\xff\xff\xff\xff\xff\xff\x02".as_slice(), None),
        (
            b"\x80\x80\x80\x80\x80\x80\x80\x80\x80\x80\x00".as_slice(),
            None,
        ),
        (b"\x80\x00".as_slice(), Some((0, 2))),
        (
            b"\x80\x80\x80\x80\x80\x80\x80\x80\x80\x01".as_slice(),
            Some((1 << 63, 10)),
        ),
    ] {
        assert_eq!(rt; front_varint(bytes), want, "{bytes:?}");
    }
}

#[test]
fn writes_fields(rt: HostRuntime) -> Result<(), Fail> {
    let mut writer = Writer::new(rt.alloc());
    writer.field_u64(1, 150)?;
    assert_eq!(rt; writer.done(), b"\x08\x96\x01".as_slice());
    writer.field_bytes(2, b"testing")?;
    assert_eq!(rt; writer.done(), b"\x08\x96\x01\x12\x07testing".as_slice());
    Ok(())
}

#[test]
fn pairs_signed_numbers_with_unsigned_ones(rt: HostRuntime) {
    for (value, number) in [
        (0, 0),
        (-1, 1),
        (1, 2),
        (-2, 3),
        (2_147_483_647, 4_294_967_294),
        (-2_147_483_648, 4_294_967_295),
        (i64::MAX, u64::MAX - 1),
        (i64::MIN, u64::MAX),
    ] {
        assert_eq!(rt; zigzag_number(value), number, "{value}");
        assert_eq!(rt; zigzag_value(number), value, "{number}");
    }
}

#[test]
fn writes_whole_numbers(rt: HostRuntime) -> Result<(), Fail> {
    let mut writer = Writer::with_capacity(rt.alloc(), 11)?;
    for (value, bytes) in [
        (7, b"\x08\x0e".as_slice()),
        (-980, b"\x08\xa7\x0f".as_slice()),
        (
            i64::MIN,
            b"\x08\xff\xff\xff\xff\xff\xff\xff\xff\xff\x01".as_slice(),
        ),
        (
            i64::MAX,
            b"\x08\xfe\xff\xff\xff\xff\xff\xff\xff\xff\x01".as_slice(),
        ),
    ] {
        assert_eq!(rt; whole_bytes(rt.alloc(), value)?.done(), bytes, "{value}");
        writer.clear();
        put_whole(&mut writer, value)?;
        assert_eq!(rt; writer.done(), bytes, "{value}");
    }
    Ok(())
}

#[test]
fn says_each_fault_in_words(rt: HostRuntime) -> Result<(), Fail> {
    for (fault, words) in [
        (WireError::Cut { at: 3 }, "cut at 3"),
        (
            WireError::LongVarint { at: 0 },
            "a varint of more than ten bytes at 0",
        ),
        (WireError::BadTag { at: 12 }, "no tag at 12"),
        (WireError::Group { at: 1 }, "a group at 1"),
        (WireError::Memory, "out of memory"),
    ] {
        assert_eq!(rt; fault.to_string(rt.alloc())?.as_str(), words);
    }
    Ok(())
}
