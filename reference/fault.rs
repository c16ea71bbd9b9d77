//! What is told when words are not accepted.

use std::fmt;

/// All refusals there are. A program that has no checks and asks for no single application meets the first seven.
#[derive(Clone, Copy, Debug, PartialEq, Eq)]
pub enum Refusal {
    Ragged,
    Strange,
    Misplaced,
    TooMany,
    Unknown,
    Twice,
    Overtargeted,
    Idle,
    Short,
    Misfit,
}

/// Who refused.
#[derive(Clone, Copy, Debug, PartialEq, Eq)]
pub enum Layer {
    Input,
    Word,
    Record,
    Book,
    Round,
    Plan,
}

/// A refusal and the place of the word that met it. The place counts from 0 in whatever run of words was judged.
#[derive(Clone, Copy, Debug, PartialEq, Eq)]
pub struct Fault {
    pub refusal: Refusal,
    pub place: usize,
}

impl Refusal {
    pub fn number(self) -> u32 {
        match self {
            Refusal::Ragged => 1,
            Refusal::Strange => 2,
            Refusal::Misplaced => 3,
            Refusal::TooMany => 4,
            Refusal::Unknown => 5,
            Refusal::Twice => 6,
            Refusal::Overtargeted => 7,
            Refusal::Idle => 8,
            Refusal::Short => 9,
            Refusal::Misfit => 10,
        }
    }

    pub fn layer(self) -> Layer {
        match self {
            Refusal::Ragged => Layer::Input,
            Refusal::Strange => Layer::Word,
            Refusal::Misplaced | Refusal::TooMany => Layer::Record,
            Refusal::Unknown | Refusal::Twice | Refusal::Overtargeted => Layer::Book,
            Refusal::Idle | Refusal::Short => Layer::Round,
            Refusal::Misfit => Layer::Plan,
        }
    }

    /// Lets a rule be written on one line: refuse with this if the condition holds.
    pub fn when(self, condition: bool) -> Result<(), Refusal> {
        if condition {
            Err(self)
        } else {
            Ok(())
        }
    }
}

impl Fault {
    /// The same fault, seen from a longer run in which `words` words stand before the run that was judged.
    pub fn behind(self, words: usize) -> Fault {
        Fault { place: self.place + words, ..self }
    }
}

impl fmt::Display for Layer {
    fn fmt(&self, out: &mut fmt::Formatter) -> fmt::Result {
        out.write_str(match self {
            Layer::Input => "input",
            Layer::Word => "word",
            Layer::Record => "record",
            Layer::Book => "book",
            Layer::Round => "round",
            Layer::Plan => "plan",
        })
    }
}

impl fmt::Display for Fault {
    fn fmt(&self, out: &mut fmt::Formatter) -> fmt::Result {
        write!(out, "refused {} at {} in {}", self.refusal.number(), self.place, self.refusal.layer())
    }
}
