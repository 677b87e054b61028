// Whether texts have the form of a format, and the first field that hasn't.
use super::texts::tree;
use cy_config::{ConfigError, Described, Field, Kind, check};
use std::test::Fail;

// A message with a name, a size, any other message, and parts of the same form.
#[derive(Clone, Copy)]
struct Part;

impl Described for Part {
    // Nothing is proved of it, so that its ghost member is left open.
    ghost field = { ? };

    fn field(self, name: &str) -> Option<Field<Part>> {
        match name {
            "name" => Some(Field::single(Kind::Text)),
            "size" => Some(Field::single(Kind::Whole { least: 1, most: 3 })),
            "rest" => Some(Field::single(Kind::AnyMessage)),
            "parts" => Some(Field::repeated(Kind::Message(Part))),
            _ => None,
        }
    }
}

// The fields of a text that aren't known, or why it is refused, in one line.
fn told(rt: &HostRuntime, text: &str) -> Result<String, Fail> {
    let tree = tree(rt, text.as_bytes())?;
    match check(rt.alloc(), Part, &tree) {
        Ok(unknown) => {
            let mut line = String::from_str(rt.alloc(), "unknown")?;
            for path in unknown.as_slice() {
                line.push_str(" ")?;
                line.push_str(path.as_str())?;
            }
            Ok(line)
        }
        Err(ConfigError::Shape { path }) => Ok(format!(in rt.alloc(); "Shape {}", path.as_str())?),
        Err(ConfigError::Memory) => Err(Fail::from("out of memory")),
    }
}

#[test]
fn refuses_the_first_field_of_another_kind(rt: HostRuntime) -> Result<(), Fail> {
    for (text, want) in [
        ("", "unknown"),
        ("name: \"a\" size: 3 rest { size: 4 } parts { }", "unknown"),
        (
            "colour: 1 parts { } parts { colour { } }",
            "unknown colour parts[1].colour",
        ),
        ("name: 3", "Shape name"),
        ("name: a", "Shape name"),
        ("size: 0", "Shape size"),
        ("size: 4", "Shape size"),
        ("size: \"3\"", "Shape size"),
        ("rest: 1", "Shape rest"),
        ("parts: 1", "Shape parts[0]"),
        ("colour: 1 size: 1 size: 4 name: 3", "Shape size"),
        (
            "parts { } parts { parts { size: 1 } parts { name: 3 } } size: 4",
            "Shape parts[1].parts[1].name",
        ),
    ] {
        let line = told(&rt, text)?;
        assert_eq!(rt; line.as_str(), want, "{text}");
    }
    Ok(())
}
