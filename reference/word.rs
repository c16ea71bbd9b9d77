//! The words of a book sheet, and the fields of all words.

use crate::fault::Refusal;

/// A word that may stand on a book sheet, taken apart.
#[derive(Clone, Copy, Debug, PartialEq, Eq)]
pub enum Word {
    Shed { cap: u32 },
    Lane { target: u32, capacity: u32 },
    Rank { lane: u32 },
    Next { lot: u32 },
}

/// The bits of a field that stands lowest in its word.
const FIELD: u32 = 0xfff;

impl Word {
    /// Takes a word apart. Looks at this word alone; whether it may stand where it stands is the book's matter.
    pub fn read(raw: u32) -> Result<Word, Refusal> {
        match raw >> 28 {
            1 => Ok(Word::Shed { cap: single_field(raw)? }),
            2 => {
                let (target, capacity) = two_fields(raw)?;
                Ok(Word::Lane { target, capacity })
            }
            3 => Ok(Word::Rank { lane: single_field(raw)? }),
            4 => Ok(Word::Next { lot: single_field(raw)? }),
            _ => Err(Refusal::Strange),
        }
    }
}

/// The field in bits 11 to 0, if all bits between it and the kind are zero.
pub fn single_field(raw: u32) -> Result<u32, Refusal> {
    let (first, second) = two_fields(raw)?;
    Refusal::Strange.when(first != 0)?;
    Ok(second)
}

/// The fields in bits 23 to 12 and in bits 11 to 0, if all bits between them and the kind are zero.
pub fn two_fields(raw: u32) -> Result<(u32, u32), Refusal> {
    Refusal::Strange.when(raw >> 24 & 0xf != 0)?;
    Ok((raw >> 12 & FIELD, raw & FIELD))
}
