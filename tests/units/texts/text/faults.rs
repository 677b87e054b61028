// Each kind of fault at its place.
use cy_text::{BadKind, TextError, parse};
use std::alloc::Global;
use std::test::Fail;

// A text that opens messages in one another, and goes on.
fn opened(alloc: Global, name: &[u8], depth: u32, rest: &[u8]) -> Result<Vec<u8>, TextError> {
    let mut text = Vec::new(alloc);
    for _ in 0..depth {
        text.extend_from_slice(name)?;
    }
    text.extend_from_slice(rest)?;
    Ok(text)
}

// The fault of a kind at a place.
fn bad(line: u32, column: u32, kind: BadKind) -> Option<TextError> {
    Some(TextError::Bad { line, column, kind })
}

#[test]
fn finds_tokens_that_are_wrong_in_themselves(rt: HostRuntime) {
    for (text, want) in [
        (b"a: $".as_slice(), bad(1, 4, BadKind::Token)),
        (b"a: 1\n  %".as_slice(), bad(2, 3, BadKind::Token)),
        (b"a: .".as_slice(), bad(1, 4, BadKind::Number)),
        (b"a: 0x".as_slice(), bad(1, 4, BadKind::Number)),
        (b"a: 08".as_slice(), bad(1, 4, BadKind::Number)),
        (b"a: 1_0".as_slice(), bad(1, 4, BadKind::Number)),
        (b"a: 1.e".as_slice(), bad(1, 4, BadKind::Number)),
        (b"a: 1ff".as_slice(), bad(1, 4, BadKind::Number)),
        (
            b"a: 18446744073709551616".as_slice(),
            bad(1, 4, BadKind::Number),
        ),
        (b"a: 'b\n'".as_slice(), bad(1, 4, BadKind::Quote)),
        (b"a: \"b'".as_slice(), bad(1, 4, BadKind::Quote)),
        (b"a: '\\q".as_slice(), bad(1, 5, BadKind::Escape)),
        (b"a: 'b\\400'".as_slice(), bad(1, 6, BadKind::Escape)),
        (b"a: '\\x'".as_slice(), bad(1, 5, BadKind::Escape)),
        (b"a: '\\ud800'".as_slice(), bad(1, 5, BadKind::Escape)),
        (b"a: '\\U00110000'".as_slice(), bad(1, 5, BadKind::Escape)),
        (b"a: '\\".as_slice(), bad(1, 5, BadKind::Escape)),
        (b"a: '\\\n'".as_slice(), bad(1, 5, BadKind::Escape)),
    ] {
        assert_eq!(rt; parse(rt.alloc(), text).err(), want);
    }
}

#[test]
fn finds_tokens_where_a_name_may_stand(rt: HostRuntime) {
    for (text, want) in [
        (b"\n\n[ext.x]: 1".as_slice(), bad(3, 1, BadKind::Extension)),
        (b"a { [b] }".as_slice(), bad(1, 5, BadKind::Extension)),
        (b"a: 1 [b]: 2".as_slice(), bad(1, 6, BadKind::Extension)),
        (b"a: 'x' [b]: 2".as_slice(), bad(1, 8, BadKind::Extension)),
        (b"1".as_slice(), bad(1, 1, BadKind::Name)),
        (b"{}".as_slice(), bad(1, 1, BadKind::Name)),
        (b"a: 1, <>".as_slice(), bad(1, 7, BadKind::Name)),
        (b"- 1".as_slice(), bad(1, 1, BadKind::Name)),
        (b"'a': 1".as_slice(), bad(1, 1, BadKind::Name)),
        (b"a: 1 'x'".as_slice(), bad(1, 6, BadKind::Name)),
        (b"a: 1 : 2".as_slice(), bad(1, 6, BadKind::Name)),
        (b"a: 01.5".as_slice(), bad(1, 6, BadKind::Name)),
        (b"}".as_slice(), bad(1, 1, BadKind::Close)),
        (b"]".as_slice(), bad(1, 1, BadKind::Close)),
        (b";".as_slice(), bad(1, 1, BadKind::Close)),
        (b"a { > }".as_slice(), bad(1, 5, BadKind::Close)),
        (b"a < }".as_slice(), bad(1, 5, BadKind::Close)),
        (b"a: 1 ]".as_slice(), bad(1, 6, BadKind::Close)),
        (b"a: 1,,".as_slice(), bad(1, 6, BadKind::Close)),
        (b"a: 1 ; ;".as_slice(), bad(1, 8, BadKind::Close)),
        (b"a {\n".as_slice(), bad(2, 1, BadKind::Close)),
        (b"a { b: 'x'".as_slice(), bad(1, 11, BadKind::Close)),
    ] {
        assert_eq!(rt; parse(rt.alloc(), text).err(), want);
    }
}

#[test]
fn finds_tokens_where_a_value_may_stand(rt: HostRuntime) {
    for (text, want) in [
        (b"a: }".as_slice(), bad(1, 4, BadKind::Value)),
        (b"a: :".as_slice(), bad(1, 4, BadKind::Value)),
        (b"a: [ 1, ]".as_slice(), bad(1, 9, BadKind::Value)),
        (b"a: [ ,".as_slice(), bad(1, 6, BadKind::Value)),
        (b"a: [ [".as_slice(), bad(1, 6, BadKind::Value)),
        (b"a: - 'x'".as_slice(), bad(1, 6, BadKind::Value)),
        (b"a: - {".as_slice(), bad(1, 6, BadKind::Value)),
        (b"a:".as_slice(), bad(1, 3, BadKind::Value)),
        (b"a: [".as_slice(), bad(1, 5, BadKind::Value)),
        (b"a: [ 1,".as_slice(), bad(1, 8, BadKind::Value)),
        (b"a: -".as_slice(), bad(1, 5, BadKind::Value)),
        (b"a ,".as_slice(), bad(1, 3, BadKind::Value)),
        (b"a ]".as_slice(), bad(1, 3, BadKind::Value)),
        (b"a [ {}, ]".as_slice(), bad(1, 9, BadKind::Value)),
        (b"a [ ;".as_slice(), bad(1, 5, BadKind::Value)),
        (b"a".as_slice(), bad(1, 2, BadKind::Value)),
        (b"a [".as_slice(), bad(1, 4, BadKind::Value)),
        (b"a 1".as_slice(), bad(1, 3, BadKind::Colon)),
        (b"a 1.5".as_slice(), bad(1, 3, BadKind::Colon)),
        (b"a b".as_slice(), bad(1, 3, BadKind::Colon)),
        (b"a 'x'".as_slice(), bad(1, 3, BadKind::Colon)),
        (b"a -1".as_slice(), bad(1, 3, BadKind::Colon)),
        (b"a [ 1 ]".as_slice(), bad(1, 5, BadKind::Colon)),
        (b"a [ {}, 'x' ]".as_slice(), bad(1, 9, BadKind::Colon)),
    ] {
        assert_eq!(rt; parse(rt.alloc(), text).err(), want);
    }
}

#[test]
fn finds_tokens_behind_an_item(rt: HostRuntime) {
    for (text, want) in [
        (b"a: [ 1 2 ]".as_slice(), bad(1, 8, BadKind::Close)),
        (b"a: [ 1 ; 2 ]".as_slice(), bad(1, 8, BadKind::Close)),
        (b"a: [ 'x' b ]".as_slice(), bad(1, 10, BadKind::Close)),
        (b"a: [ 1 [".as_slice(), bad(1, 8, BadKind::Close)),
        (b"a [ {} <> ]".as_slice(), bad(1, 8, BadKind::Close)),
        (b"a: [ 1".as_slice(), bad(1, 7, BadKind::Close)),
        (b"a: [ 'x'".as_slice(), bad(1, 9, BadKind::Close)),
    ] {
        assert_eq!(rt; parse(rt.alloc(), text).err(), want);
    }
}

#[test]
fn opens_64_messages_and_refuses_65(rt: HostRuntime) -> Result<(), Fail> {
    let closed: &[u8] = b"}}}}}}}}}}}}}}}}}}}}}}}}}}}}}}}}}}}}}}}}}}}}}}}}}}}}}}}}}}}}}}}}";
    let deep = opened(rt.alloc(), b"a{", 64, closed)?;
    assert!(rt; parse(rt.alloc(), &deep).is_ok());
    for (name, depth, rest, column) in [
        (b"a{", 65, b"".as_slice(), 130),
        (b"a<", 65, b"".as_slice(), 130),
        (b"a{", 65, b"$".as_slice(), 130),
        (b"a{", 64, b"b: <".as_slice(), 132),
        (b"a{", 64, b"b [ {".as_slice(), 133),
        (b"a<", 64, b"b: [ 1, <".as_slice(), 137),
    ] {
        let deeper = opened(rt.alloc(), name, depth, rest)?;
        let want = TextError::TooDeep { line: 1, column };
        assert_eq!(rt; parse(rt.alloc(), &deeper).err(), Some(want));
    }
    Ok(())
}

// Where a text is cut, it is still one before its first field, behind the first one, and within the
// number of the second wherever that is one.
#[test]
fn names_a_fault_at_every_cut(rt: HostRuntime) {
    let text = b"a < b: 010 ; c: \"x\" 'y' >\nzz: 1.5e3f";
    for end in 0..=text.len() {
        let is_text = matches!(end, 0 | 25..=26 | 31..=33 | 35..=36);
        match parse(rt.alloc(), &text[..end]) {
            Ok(_) => assert!(rt; is_text, "{end}"),
            Err(error) => {
                assert!(rt; !is_text, "{end}");
                assert!(rt; matches!(error, TextError::Bad { .. }), "{end}");
            }
        }
    }
}
