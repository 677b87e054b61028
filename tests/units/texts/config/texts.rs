// Texts of the tests.
use cy_text::{TextError, Tree, parse};
use std::test::Fail;

// The fields of a text, which is short, or its fault.
pub(crate) fn parsed(rt: &HostRuntime, text: &[u8]) -> Result<Result<Tree, TextError>, Fail> {
    Ok(parse(rt.alloc(), text))
}

// The fields of a short text of the form.
pub(crate) fn tree(rt: &HostRuntime, text: &[u8]) -> Result<Tree, Fail> {
    Ok(parsed(rt, text)??)
}
