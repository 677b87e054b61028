// Messages for the tests.
use cy_msg::Token;

/// A message of a channel with a time and a value, whose content is that of message 7 of a play
/// list.
pub fn message(channel: u32, seq: u32, time: u64, whole: Option<i64>) -> Token {
    Token {
        channel,
        seq,
        time,
        whole,
        origin: Some(7),
    }
}
