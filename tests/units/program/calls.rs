//! The calls that the program makes of a store, in their order.
use cy_msg::Text;
use cy_store::{MemSink, MemStore, Store, StoreError};
use cyber_cli::{Status, cyber_still};
use std::alloc::Global;
use std::process::Abort;
use std::test::Fail;
use std::thread::Threads;

/// What a call does: it asks for a file's size, reads its bytes from a place up to another one,
/// makes it, or writes such bytes.
#[derive(Clone, Copy, Debug, PartialEq, Eq)]
pub enum Call {
    Size,
    Read(u64, u64),
    Create,
    Put(u64, u64),
}

/// A store in memory that is to get these calls, how many it got, and the first that was another
/// one.
#[derive(Drop)]
struct Expecting<'a> {
    inner: MemStore,
    calls: &'a [(&'a str, Call)],
    made: usize,
    wrong: Option<(usize, Call)>,
}

impl Expecting<'_> {
    fn note(&mut self, name: &str, call: Call) {
        let is_next = match self.calls.get(self.made) {
            Some((file, want)) => *file == name && *want == call,
            None => false,
        };
        self.made += 1;
        if !is_next && self.wrong.is_none() {
            self.wrong = Some((self.made, call));
        }
    }
}

impl Store for Expecting<'_> {
    // Nothing is proved of it, so that its ghost member is left open.
    ghost shows = { ? };

    fn size(&mut self, name: &str) -> Result<u64, StoreError> {
        self.note(name, Call::Size);
        self.inner.size(name)
    }

    fn read_at(&mut self, name: &str, at: u64, buf: &mut [u8]) -> Result<usize, StoreError> {
        self.note(name, Call::Read(at, at + buf.len() as u64));
        self.inner.read_at(name, at, buf)
    }

    fn create(&mut self, name: &str) -> Result<(), StoreError> {
        self.note(name, Call::Create);
        self.inner.create(name)
    }

    fn put_at(&mut self, name: &str, at: u64, bytes: &[u8]) -> Result<(), StoreError> {
        self.note(name, Call::Put(at, at + bytes.len() as u64));
        self.inner.put_at(name, at, bytes)
    }

    fn same(&mut self, name: &str, other: &str) -> bool {
        self.inner.same(name, other)
    }
}

/// The program on these words is done, and makes just these calls of the store.
pub fn makes_calls(
    rt: &(impl Abort + Threads + Sync),
    alloc: Global,
    words: &[&str],
    store: MemStore,
    calls: &[(&str, Call)],
) -> Result<(), Fail> {
    let mut texts = Vec::new(alloc);
    for word in words {
        texts.push(Text::new(alloc, word)?)?;
    }
    let mut store = Expecting {
        inner: store,
        calls,
        made: 0,
        wrong: None,
    };
    let mut out = MemSink::new(alloc);
    let mut err = MemSink::new(alloc);
    let status = cyber_still(rt, alloc, &texts, &mut store, &mut out, &mut err);
    assert_eq!(rt; status, Status::Done);
    assert_eq!(rt; store.wrong, None);
    assert_eq!(rt; store.made, calls.len());
    Ok(())
}
