// A file compared with the record of a tape.
use crate::records::HEADER_END;
use crate::replay::{in_message, one_played, out_message, pass_wiring, record_with, small_record};
use cy_msg::Token;
use cy_reader::Record;
use cy_recording::{Played, SameError, same_record, write_record};
use cy_store::{MemStore, Store, StoreError};
use std::test::Fail;

// The most bytes that one read may ask for.
const PIECE: usize = 262_144;

// A store that notes how its files are read, and lends no more than so many bytes at once.
#[derive(Drop)]
struct Noting {
    inner: MemStore,
    most: usize,
    sizes: u64,
    greatest: usize,
    lent: u64,
}

impl Store for Noting {
    // Nothing is proved of it, so that its ghost member is left open.
    ghost shows = { ? };

    fn size(&mut self, name: &str) -> Result<u64, StoreError> {
        self.sizes += 1;
        self.inner.size(name)
    }

    fn read_at(&mut self, name: &str, at: u64, buf: &mut [u8]) -> Result<usize, StoreError> {
        self.greatest = self.greatest.max(buf.len());
        let size = buf.len().min(self.most);
        let read = self.inner.read_at(name, at, &mut buf[..size])?;
        self.lent += read as u64;
        Ok(read)
    }

    fn create(&mut self, _name: &str) -> Result<(), StoreError> {
        Err(StoreError::Failed)
    }

    fn put_at(&mut self, _name: &str, _at: u64, _bytes: &[u8]) -> Result<(), StoreError> {
        Err(StoreError::Failed)
    }

    fn same(&mut self, name: &str, other: &str) -> bool {
        self.inner.same(name, other)
    }
}

// A store with the record of a tape over a record.
fn written(rt: &HostRuntime, record: &Record, tape: &[Token]) -> Result<MemStore, Fail> {
    let mut store = MemStore::new(rt.alloc());
    let played = Played {
        whole: record,
        wiring: &pass_wiring(rt)?,
        list: &one_played(rt)?,
    };
    write_record(rt.alloc(), &mut store, "out.rec", &played, tape)?;
    Ok(store)
}

// What comparing the file of a name with the record of a tape answers.
fn compared<S: Store>(
    rt: &HostRuntime,
    store: &mut S,
    name: &str,
    record: &Record,
    tape: &[Token],
) -> Result<Result<Option<u64>, SameError>, Fail> {
    let played = Played {
        whole: record,
        wiring: &pass_wiring(rt)?,
        list: &one_played(rt)?,
    };
    Ok(same_record(rt.alloc(), store, name, &played, tape))
}

// The bytes of the file that was written.
fn bytes_of(rt: &HostRuntime, store: &MemStore) -> Result<Vec<u8>, Fail> {
    let bytes = store.file("out.rec").unwrap_or(&[]);
    Ok(bytes.to_vec(rt.alloc())?)
}

// A store with a file of these bytes.
fn store_of(rt: &HostRuntime, bytes: &[u8]) -> Result<MemStore, Fail> {
    let mut store = MemStore::new(rt.alloc());
    store.create("out.rec")?;
    store.put_at("out.rec", 0, bytes)?;
    Ok(store)
}

// The two messages of a tape: the played one, and one that is made.
fn both() -> [Token; 2] {
    [in_message(), out_message(Some(-1))]
}

#[test]
fn finds_the_record_of_a_tape_the_same(rt: HostRuntime) -> Result<(), Fail> {
    let record = small_record(&rt)?;
    let none: [Token; 0] = [];
    let turned = [out_message(None), in_message()];
    for tape in [&both()[..], &turned[..], &none[..]] {
        let mut store = written(&rt, &record, tape)?;
        let answer = compared(&rt, &mut store, "out.rec", &record, tape)?;
        assert_eq!(rt; answer, Ok(None), "{}", tape.len());
    }
    Ok(())
}

// A byte in the header, its last one, the first one behind it, one of a chunk's body and the last.
#[test]
fn tells_the_first_place_that_differs(rt: HostRuntime) -> Result<(), Fail> {
    let record = small_record(&rt)?;
    let bytes = bytes_of(&rt, &written(&rt, &record, &both())?)?;
    let body = HEADER_END + 100;
    let last = bytes.len() - 1;
    let rows = [
        (0, 0),
        (24, 24),
        (HEADER_END - 1, HEADER_END - 1),
        (HEADER_END, HEADER_END),
        (body, body),
        (last, last),
        (body, last),
        (30, last),
        (30, body),
    ];
    for (place, other) in rows {
        let mut changed = bytes.to_vec(rt.alloc())?;
        changed[place] ^= 1;
        if other != place {
            changed[other] ^= 1;
        }
        let mut store = store_of(&rt, &changed)?;
        let answer = compared(&rt, &mut store, "out.rec", &record, &both())?;
        assert_eq!(rt; answer, Ok(Some(place as u64)), "{place} {other}");
        assert!(rt; store.file("out.rec") == Some(&changed[..]), "{place} {other}");
    }
    Ok(())
}

#[test]
fn tells_where_the_shorter_one_ends(rt: HostRuntime) -> Result<(), Fail> {
    let record = small_record(&rt)?;
    let bytes = bytes_of(&rt, &written(&rt, &record, &both())?)?;
    for size in [0, 1, HEADER_END - 1, HEADER_END, HEADER_END + 1, bytes.len() - 1] {
        let mut store = store_of(&rt, &bytes[..size])?;
        let answer = compared(&rt, &mut store, "out.rec", &record, &both())?;
        assert_eq!(rt; answer, Ok(Some(size as u64)), "{size}");
    }
    let mut longer = bytes.to_vec(rt.alloc())?;
    longer.push(0)?;
    let mut store = store_of(&rt, &longer)?;
    let answer = compared(&rt, &mut store, "out.rec", &record, &both())?;
    assert_eq!(rt; answer, Ok(Some(bytes.len() as u64)));
    Ok(())
}

// The calls ask for the size, and read two channels, the header and the body of a chunk, the index
// and the header.
#[test]
fn answers_where_each_call_fails(rt: HostRuntime) -> Result<(), Fail> {
    let record = small_record(&rt)?;
    let bytes = bytes_of(&rt, &written(&rt, &record, &both())?)?;
    for call in 1..=8 {
        let mut store = store_of(&rt, &bytes)?;
        store.fail_at(2 + call, 0)?;
        let answer = compared(&rt, &mut store, "out.rec", &record, &both())?;
        let want = if call < 8 { Err(SameError::Store) } else { Ok(None) };
        assert_eq!(rt; answer, want, "{call}");
        assert!(rt; store.file("out.rec") == Some(&bytes[..]), "{call}");
    }
    let mut store = store_of(&rt, &bytes)?;
    let answer = compared(&rt, &mut store, "none.rec", &record, &both())?;
    assert_eq!(rt; answer, Err(SameError::Store));
    assert!(rt; store.file("none.rec").is_none());
    Ok(())
}

// It asks for the size once, never for more than a piece, and reads each byte once.
#[test]
fn reads_a_long_file_in_pieces(rt: HostRuntime) -> Result<(), Fail> {
    let content = vec![in rt.alloc(); 7u8; 2 * PIECE + 9]?;
    let record = record_with(&rt, &content)?;
    let tape = [in_message()];
    let inner = written(&rt, &record, &tape)?;
    let size = inner.file("out.rec").unwrap_or(&[]).len() as u64;
    let mut store = Noting {
        inner,
        most: PIECE,
        sizes: 0,
        greatest: 0,
        lent: 0,
    };
    let answer = compared(&rt, &mut store, "out.rec", &record, &tape)?;
    assert_eq!(rt; answer, Ok(None));
    assert_eq!(rt; store.sizes, 1);
    assert_eq!(rt; store.greatest, PIECE);
    assert_eq!(rt; store.lent, size);
    Ok(())
}

#[test]
fn goes_on_after_short_reads(rt: HostRuntime) -> Result<(), Fail> {
    let record = small_record(&rt)?;
    let bytes = bytes_of(&rt, &written(&rt, &record, &both())?)?;
    let last = bytes.len() - 1;
    let mut changed = bytes.to_vec(rt.alloc())?;
    changed[last] ^= 1;
    for (file, want) in [(&bytes, None), (&changed, Some(last as u64))] {
        let mut store = Noting {
            inner: store_of(&rt, file)?,
            most: 3,
            sizes: 0,
            greatest: 0,
            lent: 0,
        };
        let answer = compared(&rt, &mut store, "out.rec", &record, &both())?;
        assert_eq!(rt; answer, Ok(want));
    }
    Ok(())
}
