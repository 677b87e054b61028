//! Tests of `cy_value` by its public calls: rows of each kind, along paths of each length.

mod rows;

use cy_msg::{Items, Text};
use cy_value::{ChannelValue, ScalarKind, ValueForm, copy_values, form_at, form_of};
use cy_value::{place_of, value_by, value_in};
use cy_wire::whole_bytes;
use rows::ROWS;
use std::alloc::Global;
use std::process::Abort;
use std::test::Fail;

// The digit that a byte is.
fn digit_of(byte: u8) -> u8 {
    if byte < b'a' {
        byte - b'0'
    } else {
        byte - b'a' + 10
    }
}

// The bytes that a text in hexadecimal is; none of a dash.
fn bytes_of(alloc: Global, text: &str) -> Result<Vec<u8>, Fail> {
    let mut bytes = Vec::new(alloc);
    let digits = text.as_bytes();
    for place in 0..digits.len() / 2 {
        bytes.push(digit_of(digits[2 * place]) * 16 + digit_of(digits[2 * place + 1]))?;
    }
    Ok(bytes)
}

// The numbers that a text has between commas.
fn path_of(alloc: Global, text: &str) -> Result<Items<u32>, Fail> {
    let mut path = Vec::new(alloc);
    for number in text.split(',') {
        path.push(number.parse::<u32>()?)?;
    }
    Ok(Items::new(path))
}

// A word of a row, and what is behind it.
fn word_of(row: &str) -> Result<(&str, &str), Fail> {
    match row.split_once(' ') {
        Some(parts) => Ok(parts),
        None => Err(Fail::from("a word")),
    }
}

// The value that a row says.
fn value_of(text: &str) -> Result<Option<i64>, Fail> {
    if text == "None" {
        return Ok(None);
    }
    Ok(Some(text.parse::<i64>()?))
}

// The form in front of a row, and what is behind it.
fn form_before(alloc: Global, row: &str) -> Result<(ValueForm, &str), Fail> {
    let (path, rest) = word_of(row)?;
    let (name, rest) = word_of(rest)?;
    let (scale, rest) = word_of(rest)?;
    let Some(kind) = ScalarKind::named(name) else {
        return Err(Fail::from("a kind"));
    };
    if kind.name() != name {
        return Err(Fail::from("its name"));
    }
    let form = ValueForm {
        path: path_of(alloc, path)?,
        kind,
        scale: scale.parse::<u64>()?,
    };
    Ok((form, rest))
}

// The value of a channel in the last number of a path.
fn value_for(alloc: Global, channel: &str, path: &str) -> Result<ChannelValue, Fail> {
    Ok(ChannelValue {
        channel: Text::new(alloc, channel)?,
        form: ValueForm {
            path: path_of(alloc, path)?,
            kind: ScalarKind::Int64,
            scale: 1,
        },
    })
}

#[test]
fn finds_the_value_of_each_kind(rt: HostRuntime) -> Result<(), Fail> {
    for row in ROWS.lines() {
        let (form, rest) = form_before(rt.alloc(), row)?;
        let (content, value) = word_of(rest)?;
        let content = bytes_of(rt.alloc(), content)?;
        assert_eq!(rt; value_in(&form, &content), value_of(value)?, "{row}");
    }
    Ok(())
}

#[test]
fn reads_by_the_first_form_of_a_channel(rt: HostRuntime) -> Result<(), Fail> {
    let mut values = Vec::new(rt.alloc());
    for (channel, path) in [("/a", "1"), ("/b", "2"), ("/a", "3")] {
        values.push(value_for(rt.alloc(), channel, path)?)?;
    }
    let copies = copy_values(rt.alloc(), &values)?;
    let content = b"\x08\x02\x10\x04\x18\x06";
    for (channel, place, value) in [
        ("/a", Some(0), Some(2)),
        ("/b", Some(1), Some(4)),
        // No form is given, so the content is read as zigzag in field 1.
        ("/c", None, Some(1)),
    ] {
        let form = form_of(copies.as_slice(), channel);
        assert_eq!(rt; value_by(form, content), value, "{channel}");
        assert_eq!(rt; place_of(&values, channel), place, "{channel}");
        assert_eq!(rt; value_by(form_at(&values, place), content), value, "{channel}");
    }
    let whole = whole_bytes(rt.alloc(), -5)?;
    assert_eq!(rt; value_by(None, whole.done()), Some(-5));
    Ok(())
}

#[test]
fn tells_forms_apart(rt: HostRuntime) -> Result<(), Fail> {
    let (form, _) = form_before(rt.alloc(), "1,2 DOUBLE 1000 -")?;
    assert!(rt; form.is_same(&form.copy(rt.alloc())?));
    for other in [
        "1 DOUBLE 1000 -",
        "1,2,3 DOUBLE 1000 -",
        "1,3 DOUBLE 1000 -",
        "1,2 FLOAT 1000 -",
        "1,2 DOUBLE 100 -",
    ] {
        let (other_form, _) = form_before(rt.alloc(), other)?;
        assert!(rt; !form.is_same(&other_form), "{other}");
    }
    Ok(())
}
