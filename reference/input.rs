//! Standard input, of which no more is read than it takes to know the answer.

use crate::day::{LONGEST, MOST_WORDS_BEHIND_FIRST};
use std::fs::File;
use std::io::{self, Read};
use std::os::fd::AsFd;

const BYTES_OF_FIRST_WORD: usize = 4;

/// The bytes of standard input that the answer depends on. The library's own standard input reads ahead, so this reads
/// from a file that does not.
pub fn read() -> io::Result<Vec<u8>> {
    read_from(File::from(io::stdin().as_fd().try_clone_to_owned()?))
}

pub fn read_from(mut input: impl Read) -> io::Result<Vec<u8>> {
    let mut bytes = Vec::new();
    input.by_ref().take(BYTES_OF_FIRST_WORD as u64).read_to_end(&mut bytes)?;
    let behind = worth_reading_behind(&bytes);
    input.take(behind as u64).read_to_end(&mut bytes)?;
    Ok(bytes)
}

/// How many bytes behind the first word can change the answer. Without a first word, or with one that asks for more
/// words than fit a day, the day is ragged whatever follows; otherwise one byte too many is enough to see that.
fn worth_reading_behind(first: &[u8]) -> usize {
    match first.try_into().map(u32::from_be_bytes) {
        Ok(number) if number as usize <= MOST_WORDS_BEHIND_FIRST => LONGEST + 1 - BYTES_OF_FIRST_WORD,
        _ => 0,
    }
}
