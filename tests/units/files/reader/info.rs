// The text that tells what a record is.
use cy_msg::Bytes;
use cy_info::info_text;
use cy_reader::load;
use cy_store::{MemStore, Store};
use std::alloc::Global;
use std::test::Fail;
use std::thread::Threads;

// A complete header whose numbers are 7 to 13, and one that is not complete.
const COMPLETE: &[u8] = b"\0\0\0\0\0\0\0\0\x16\0\0\0\0\0\0\0\x08\x01\x10\x02\x18\0\x30\x07\x38\x08\
    \x40\x09\x48\x0a\x50\x0b\x58\x0c\x60\x0d\x68\x01";

const INCOMPLETE: &[u8] = b"\0\0\0\0\0\0\0\0\x04\0\0\0\0\0\0\0\x60\x0d\x68\0";

// A chunk's body of a message on `b` at 5 and one on `c` at 3, the section of channel `b`, and an
// index of five entries: the body, the body as a channel, a place inside the channel's section, the
// header, and the index itself.
const SECTIONS: &[u8] = b"\x02\0\0\0\0\0\0\0\x12\0\0\0\0\0\0\0\
    \x0a\x07\x0a\x01b\x10\x05\x1a\0\x0a\x07\x0a\x01c\x10\x03\x1a\0\
    \x04\0\0\0\0\0\0\0\x06\0\0\0\0\0\0\0\x0a\x01b\x12\x01t\
    \x03\0\0\0\0\0\0\0\x22\0\0\0\0\0\0\0\x0a\x05\x08\x02\x10\x90\x10\x0a\x05\x08\x04\x10\x90\x10\
    \x0a\x05\x08\x04\x10\xb3\x10\x0a\x04\x08\0\x10\0\x0a\x05\x08\x03\x10\xc8\x10";

const DIFFERS: &str = "file in.rec bytes 2170\nversion 1.2 complete yes compress 0\n\
    channels 2 chunks 1 messages 2\ntime 3 to 5\nindex present entries 5\n\
    channel \"b\" messages 1 type \"t\"\nchannel \"c\" messages 1 type \"\"\n\
    differs index_position header 7 counted 2120\ndiffers chunk_number header 8 counted 1\n\
    differs channel_number header 9 counted 2\ndiffers begin_time header 10 counted 3\n\
    differs end_time header 11 counted 5\ndiffers message_number header 12 counted 2\n\
    differs size header 13 counted 2170\ndiffers index entry 1 position 2064\n\
    differs index entry 2 position 2099\n";

// The text of a file of this header and what follows it.
fn text_of(
    rt: &(impl Threads + Sync),
    alloc: Global,
    header: &[u8],
    rest: &[u8],
) -> Result<Bytes, Fail> {
    let mut bytes = header.to_vec(alloc)?;
    bytes.resize(2_064, 0)?;
    bytes.extend_from_slice(rest)?;
    let mut store = MemStore::new(alloc);
    store.create("in.rec")?;
    store.put_at("in.rec", 0, bytes.as_slice())?;
    let record = load(rt, alloc, &mut store, "in.rec")?;
    Ok(info_text(alloc, &record)?)
}

#[test]
fn tells_each_difference(rt: HostRuntime) -> Result<(), Fail> {
    let text = text_of(&rt, rt.alloc(), COMPLETE, SECTIONS)?;
    assert_eq!(rt; text.as_slice(), DIFFERS.as_bytes());
    Ok(())
}

#[test]
fn tells_of_each_index_without_messages(rt: HostRuntime) -> Result<(), Fail> {
    for (rest, size, index) in [
        (b"".as_slice(), "2064", "absent\n"),
        (b"\x03\0\0\0\0\0\0\0\x09\0\0\0\0\0\0\0cut", "2083", "cut\n"),
        (
            b"\x03\0\0\0\0\0\0\0\x01\0\0\0\0\0\0\0\xff",
            "2081",
            "unreadable\n",
        ),
        (
            b"\x03\0\0\0\0\0\0\0\x06\0\0\0\0\0\0\0\x0a\x04\x08\x04\x10\x05",
            "2086",
            "present entries 1\ndiffers index entry 0 position 5\n",
        ),
    ] {
        let text = text_of(&rt, rt.alloc(), INCOMPLETE, rest)?;
        let want = format!(in rt.alloc();
            "file in.rec bytes {size}\nversion 0.0 complete no compress 0\n\
            channels 0 chunks 0 messages 0\ntime 0 to 0\nindex {index}"
        )?;
        assert_eq!(rt; text.as_slice(), want.as_bytes());
    }
    Ok(())
}
