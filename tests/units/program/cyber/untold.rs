// A store whose files are shorter when they are read than when their size was asked.
use super::ran::{PASS, ends, run, store_of};
use super::samples::{in_record, out_record};
use cy_store::{MemStore, Store, StoreError};
use cyber_cli::Status;
use std::test::Fail;

/// A store in memory that answers the sizes of its files as larger by so many bytes.
#[derive(Drop)]
struct Untold {
    inner: MemStore,
    more: u64,
}

impl Store for Untold {
    // Nothing is proved of it, so that its ghost member is left open.
    ghost shows = { ? };

    fn size(&mut self, name: &str) -> Result<u64, StoreError> {
        Ok(self.inner.size(name)? + self.more)
    }

    fn read_at(&mut self, name: &str, at: u64, buf: &mut [u8]) -> Result<usize, StoreError> {
        self.inner.read_at(name, at, buf)
    }

    fn create(&mut self, name: &str) -> Result<(), StoreError> {
        self.inner.create(name)
    }

    fn put_at(&mut self, name: &str, at: u64, bytes: &[u8]) -> Result<(), StoreError> {
        if at > self.inner.size(name)? {
            return Err(StoreError::Failed);
        }
        self.inner.put_at(name, at, bytes)
    }

    fn same(&mut self, name: &str, other: &str) -> bool {
        self.inner.same(name, other)
    }
}

// A file that ends before the size that was told is read as far as it goes.
#[test]
fn reads_a_file_that_shrank(rt: HostRuntime) -> Result<(), Fail> {
    let alloc = rt.alloc();
    for more in [0, 1, 70_000] {
        let inner = store_of(alloc, &in_record(alloc)?)?;
        let store = Untold { inner, more };
        let ran = run(&rt, alloc, &PASS, store)?;
        assert_eq!(rt; ran.status, Status::Done, "{more}");
        assert_eq!(rt;
            ran.store.inner.file("out.rec"),
            Some(out_record(alloc)?.as_slice())
        );
    }
    Ok(())
}

#[test]
fn faults_where_nothing_is_told(rt: HostRuntime) -> Result<(), Fail> {
    let alloc = rt.alloc();
    let store = Untold {
        inner: MemStore::new(alloc),
        more: 0,
    };
    let ran = run(&rt, alloc, &PASS, store)?;
    let line = b"cyber: in.rec: the store failed\n";
    ends(&rt, &ran, Status::StoreFault, b"", line);
    Ok(())
}
