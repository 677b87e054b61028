//! Tests of the record of a tape, of a file compared with it, of the files of a play, and of the
//! program in memory.

mod calls;
mod cyber;
mod cyber_make;
mod cyber_play;
mod make;
mod records;
mod replay;
mod same;
