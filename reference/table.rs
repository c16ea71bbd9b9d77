//! A second opinion on `ruletable`: reads lines from standard input and answers each, with what both rules keep and
//! gain if the line is a question, and else with what is wrong with it. Written from docs/ alone.

mod question;
mod rules;

use question::{Complaint, Question};
use rules::Rule;
use std::fmt;
use std::io::{self, BufRead, Write};

fn main() -> io::Result<()> {
    let mut input = io::stdin().lock();
    let mut output = io::stdout().lock();
    let mut line = Vec::new();
    let mut number: u64 = 0;
    while read_line(&mut input, &mut line)? {
        number = number.saturating_add(1);
        match Question::read(&line) {
            Ok(question) => write!(output, "{question}")?,
            Err(complaint) => writeln!(output, "line {number}: {complaint}")?,
        }
        // Whoever asks line by line gets each answer before the next line is awaited.
        output.flush()?;
    }
    Ok(())
}

/// Reads a line, without the newline that ends it. False if there is none: behind the last newline a line needs a byte.
fn read_line(input: &mut impl BufRead, line: &mut Vec<u8>) -> io::Result<bool> {
    line.clear();
    let bytes = input.read_until(b'\n', line)?;
    if line.last() == Some(&b'\n') {
        line.pop();
    }
    Ok(bytes > 0)
}

/// The answer to a question.
impl fmt::Display for Question {
    fn fmt(&self, out: &mut fmt::Formatter) -> fmt::Result {
        let (card, numbers) = (&self.card, &self.numbers);
        writeln!(out, "cap {}, lanes {}", card.cap, card.lanes.len())?;
        let turns = Rule::Turns.choice(card, numbers);
        let shares = Rule::Shares.choice(card, numbers);
        for (lane, (turns, shares)) in turns.iter().zip(&shares).enumerate() {
            writeln!(out, "  lane {lane}: turns keep {turns}, shares keep {shares}")?;
        }
        if let Some((a, b)) = self.asked_move {
            let turns = yes_or_no(Rule::Turns.gain(card, numbers, a, b));
            let shares = yes_or_no(Rule::Shares.gain(card, numbers, a, b));
            writeln!(out, "  move {a}>{b}: turns gain {turns}, shares gain {shares}")?;
        }
        Ok(())
    }
}

fn yes_or_no(answer: bool) -> &'static str {
    if answer {
        "yes"
    } else {
        "no"
    }
}

impl fmt::Display for Complaint {
    fn fmt(&self, out: &mut fmt::Formatter) -> fmt::Result {
        match self {
            Complaint::NoCap => write!(out, "no cap"),
            Complaint::Cap => write!(out, "the cap is no number up to 4095"),
            Complaint::BehindMove => write!(out, "a word behind the move"),
            Complaint::Move => write!(out, "the move is not A>B"),
            Complaint::NinthLane => write!(out, "more than 8 lanes"),
            Complaint::Lane(lane) => write!(out, "lane {lane} is not CAPACITY/TARGET/NUMBER"),
            Complaint::Capacity(lane) => write!(out, "lane {lane} has a capacity above 4095"),
            Complaint::Target(lane) => write!(out, "lane {lane} has a target above its capacity"),
            Complaint::Targets(lane) => write!(out, "the targets up to lane {lane} are above the cap"),
        }
    }
}
