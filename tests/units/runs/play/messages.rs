// That the calls of the plain types succeed, and that their structs can be made from outside.
use cy_msg::{
    Bytes, ContextPlan, Items, Names, NamesError, Placement, PlayList, Text, Token, push_quoted,
};
use std::test::Fail;

#[test]
fn copies_texts_and_bytes(rt: HostRuntime) -> Result<(), Fail> {
    let text = Text::new(rt.alloc(), "Straße")?;
    assert_eq!(rt; text.as_str(), "Straße");
    let bytes = Bytes::new(rt.alloc(), &[0, 255, 10])?;
    assert_eq!(rt; bytes.as_slice(), [0, 255, 10].as_slice());
    Ok(())
}

#[test]
fn numbers_names(rt: HostRuntime) -> Result<(), Fail> {
    let mut names = Names::new(rt.alloc());
    for (name, number) in [
        ("/scan", 0),
        ("/odom", 1),
        ("/scan", 0),
        ("", 2),
        ("/odom", 1),
    ] {
        assert_eq!(rt; names.add(rt.alloc(), name)?, number, "{name}");
    }
    assert_eq!(rt; names.count(), 3);
    assert_eq!(rt; names.name(1), "/odom");
    assert_eq!(rt; names.number_of("/scan"), Some(0));
    assert_eq!(rt; names.number_of("/sca"), None);
    Ok(())
}

#[test]
fn refuses_one_name_more_than_are_kept(rt: HostRuntime) -> Result<(), Fail> {
    let mut names = Names::new(rt.alloc());
    let mut name = String::new(rt.alloc());
    for number in 0..1024 {
        name.push_str("a")?;
        assert_eq!(rt; names.add(rt.alloc(), &name)?, number);
    }
    assert_eq!(rt; names.add(rt.alloc(), "b"), Err(NamesError::Full));
    assert_eq!(rt; names.add(rt.alloc(), "aa")?, 1);
    assert_eq!(rt; names.count(), 1024);
    Ok(())
}

#[test]
fn makes_a_play_list(rt: HostRuntime) -> Result<(), Fail> {
    let token = Token {
        channel: 3,
        seq: 1,
        time: 40,
        whole: Some(-7),
        origin: None,
    };
    let list = PlayList {
        tokens: Items::new(vec![in rt.alloc(); token]?),
        places: Items::new(vec![in rt.alloc(); 5]?),
        shadowed: 2,
    };
    assert_eq!(rt; list.tokens.as_slice(), [token].as_slice());
    assert_eq!(rt; list.places.as_slice(), [5].as_slice());
    Ok(())
}

#[test]
fn makes_a_placement(rt: HostRuntime) -> Result<(), Fail> {
    let context = ContextPlan {
        name: Text::new(rt.alloc(), "default_grp")?,
        pinned: false,
        processors: 2,
        order: Items::new(vec![in rt.alloc(); 0]?),
    };
    let placement = Placement {
        contexts: Items::new(vec![in rt.alloc(); context]?),
    };
    assert_eq!(rt; placement.contexts.as_slice().len(), 1);
    Ok(())
}

#[test]
fn quotes_bytes(rt: HostRuntime) -> Result<(), Fail> {
    for (bytes, is_text, quoted) in [
        (b"".as_slice(), true, r#""""#),
        (b"a\"b\\", true, r#""a\"b\\""#),
        (b"\n\t\r\x01\x7f", true, r#""\n\t\r\001\177""#),
        ("é".as_bytes(), true, r#""é""#),
        (b"\xff \x80~", false, r#""\377 \200~""#),
    ] {
        let mut to = b"= ".to_vec(rt.alloc())?;
        push_quoted(&mut to, bytes, is_text)?;
        assert_eq!(rt; &to[..2], b"= ".as_slice());
        assert_eq!(rt; &to[2..], quoted.as_bytes());
    }
    Ok(())
}
