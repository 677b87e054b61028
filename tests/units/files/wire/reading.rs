// Fields that are read: their places, each odd form that is accepted, and each fault.
use cy_wire::{Field, FieldValue, Reader, WireError, Writer, whole_bytes, whole_of};
use std::process::Abort;
use std::test::Fail;

// The place where the bytes stand in these tests.
const BASE: u64 = 1_000;

fn fields_are(
    rt: &impl Abort,
    bytes: &[u8],
    want: &[Field<'_>],
    end: Result<Option<Field<'_>>, WireError>,
) {
    let mut reader = Reader::new(bytes, BASE);
    for field in want {
        assert_eq!(rt; reader.next_field(), Ok(Some(*field)));
    }
    // The end and a fault are answered again and again.
    assert_eq!(rt; reader.next_field(), end);
    assert_eq!(rt; reader.next_field(), end);
}

fn begins_with_fault(rt: &impl Abort, bytes: &[u8], fault: WireError) {
    fields_are(rt, bytes, &[], Err(fault));
}

#[test]
fn reads_fields_of_every_type_with_their_places(rt: HostRuntime) {
    let want = [
        Field {
            number: 1,
            at: 1_000,
            value: FieldValue::Varint(150),
        },
        Field {
            number: 2,
            at: 1_003,
            value: FieldValue::Bytes {
                start: 1_005,
                bytes: b"testing",
            },
        },
        Field {
            number: 3,
            at: 1_012,
            value: FieldValue::Eight(0x0807_0605_0403_0201),
        },
        Field {
            number: 536_870_911,
            at: 1_021,
            value: FieldValue::Four(0x0403_0201),
        },
    ];
    fields_are(
        &rt,
        b"\x08\x96\x01\x12\x07testing\x19\x01\x02\x03\x04\x05\x06\x07\x08\xfd\xff\xff\xff\x0f\
          \x01\x02\x03\x04",
        &want,
        Ok(None),
    );
}

#[test]
fn reads_numbers_of_more_bytes_than_they_need_and_drops_bits_past_64(rt: HostRuntime) {
    for (bytes, number) in [
        (b"\x08\x80\x00".as_slice(), 0),
        (b"\x88\x00\x96\x81\x80\x00".as_slice(), 150),
        (
            b"\x08\xff\xff\xff\xff\xff\xff\xff\xff\xff\x01".as_slice(),
            u64::MAX,
        ),
        (
            b"\x08\xff\xff\xff\xff\xff\xff\xff\xff\xff\x7f".as_slice(),
            u64::MAX,
        ),
        (
            b"\x08\x80\x80\x80\x80\x80\x80\x80\x80\x80\x7e".as_slice(),
            0,
        ),
        (
            b"\x08\x80\x80\x80\x80\x80\x80\x80\x80\x80\x01".as_slice(),
            1 << 63,
        ),
    ] {
        let want = [Field {
            number: 1,
            at: BASE,
            value: FieldValue::Varint(number),
        }];
        fields_are(&rt, bytes, &want, Ok(None));
    }
}

#[test]
fn places_each_fault(rt: HostRuntime) {
    for (bytes, fault) in [
        (b"\x80".as_slice(), WireError::Cut { at: 1_000 }),
        (b"\x08".as_slice(), WireError::Cut { at: 1_001 }),
        (b"\x08\xff".as_slice(), WireError::Cut { at: 1_001 }),
        (b"\x12\x03ab".as_slice(), WireError::Cut { at: 1_002 }),
        (b"\x12\x83".as_slice(), WireError::Cut { at: 1_001 }),
        (
            b"\x12\xff\xff\xff\xff\xff\xff\xff\xff\xff\x01".as_slice(),
            WireError::Cut { at: 1_011 },
        ),
        (
            b"\x19\x01\x02\x03\x04\x05\x06\x07".as_slice(),
            WireError::Cut { at: 1_001 },
        ),
        (b"\x1d\x01\x02\x03".as_slice(), WireError::Cut { at: 1_001 }),
        (
            b"\x08\x80\x80\x80\x80\x80\x80\x80\x80\x80\x80".as_slice(),
            WireError::LongVarint { at: 1_001 },
        ),
        (
            b"\x80\x80\x80\x80\x80\x80\x80\x80\x80\x80\x00".as_slice(),
            WireError::LongVarint { at: 1_000 },
        ),
        (
            b"\x08\x80\x80\x80\x80\x80\x80\x80\x80\x80".as_slice(),
            WireError::Cut { at: 1_001 },
        ),
        // A field of number 0, the types 6 and 7, and a tag of more than 32 bits.
        (b"\x00\x00".as_slice(), WireError::BadTag { at: 1_000 }),
        (b"\x03".as_slice(), WireError::BadTag { at: 1_000 }),
        (b"\x0e\x00".as_slice(), WireError::BadTag { at: 1_000 }),
        (b"\x0f\x00".as_slice(), WireError::BadTag { at: 1_000 }),
        (
            b"\x80\x80\x80\x80\x10\x00".as_slice(),
            WireError::BadTag { at: 1_000 },
        ),
        (
            b"\x83\x80\x80\x80\x10".as_slice(),
            WireError::BadTag { at: 1_000 },
        ),
        (b"\x0b".as_slice(), WireError::Group { at: 1_000 }),
        (b"\x0c".as_slice(), WireError::Group { at: 1_000 }),
    ] {
        begins_with_fault(&rt, bytes, fault);
    }
}

#[test]
fn reads_the_fields_before_a_fault(rt: HostRuntime) {
    let before = [Field {
        number: 1,
        at: BASE,
        value: FieldValue::Varint(7),
    }];
    fields_are(
        &rt,
        b"\x08\x07\x0b",
        &before,
        Err(WireError::Group { at: 1_002 }),
    );
}

#[test]
fn takes_the_last_whole_number_and_skips_all_else(rt: HostRuntime) -> Result<(), Fail> {
    for (content, whole) in [
        (b"\x08\x0e".as_slice(), Some(7)),
        (b"\x08\x0e\x08\xa7\x0f".as_slice(), Some(-980)),
        (
            b"\x08\x8b\x1b\x12\x01a\x0a\x01b\x1d\x00\x00\x00\x00".as_slice(),
            Some(-1_734),
        ),
        (b"\x10\x01\x08\x0e".as_slice(), Some(7)),
        (b"".as_slice(), None),
        (b"\x10\x0e".as_slice(), None),
        (b"\x0a\x01a".as_slice(), None),
        (b"\xff".as_slice(), None),
        (b"\x08\x0e\x0b".as_slice(), None),
    ] {
        assert_eq!(rt; whole_of(content), whole, "{content:?}");
    }
    for value in [0, -1, i64::MAX, i64::MIN] {
        assert_eq!(rt;
            whole_of(whole_bytes(rt.alloc(), value)?.done()),
            Some(value)
        );
    }
    Ok(())
}

#[test]
fn reads_what_was_written(rt: HostRuntime) -> Result<(), Fail> {
    let mut writer = Writer::new(rt.alloc());
    writer.field_u64(15, u64::MAX)?;
    writer.field_bytes(16, b"")?;
    let want = [
        Field {
            number: 15,
            at: 1_000,
            value: FieldValue::Varint(u64::MAX),
        },
        Field {
            number: 16,
            at: 1_011,
            value: FieldValue::Bytes {
                start: 1_014,
                bytes: b"",
            },
        },
    ];
    fields_are(&rt, writer.done(), &want, Ok(None));
    Ok(())
}
