//! A second opinion on `dayview` and `slipview`: reads a day from standard input and prints its book and how many slip
//! words follow (`judge words`), or its book and its slips (`judge slips`), or the one line that says why it is refused.
//! Written from docs/ alone.

// Lots do not apply here, so half of the round is not used.
#![allow(dead_code)]

mod book;
mod day;
mod fault;
mod input;
mod layout;
mod plan;
mod round;
mod rules;
mod set;
mod slip;
mod word;

use book::{Book, Lane};
use day::Day;
use fault::Fault;
use round::Round;
use rules::Rule;
use slip::{LaneNumber, Lot};
use std::env;
use std::fmt;
use std::io::{self, Write};

fn main() -> io::Result<()> {
    // Both answers end with status 0: a refusal is an answer.
    let answer = match judge(&input::read()?, env::args().nth(1).as_deref() == Some("words")) {
        Ok(view) => view.to_string(),
        Err(fault) => format!("{fault}\n"),
    };
    io::stdout().write_all(answer.as_bytes())
}

fn judge(bytes: &[u8], words_alone: bool) -> Result<View, Fault> {
    let day = Day::read(bytes)?;
    let book = day.open_book()?;
    if words_alone {
        return Ok(View { book, slips: Slips::Counted(day.slip_words()) });
    }
    // No rule is asked when a slip is entered, so either will do.
    let round = day.begin_round(&book, Rule::Turns)?;
    Ok(View { book, slips: Slips::Entered(round) })
}

/// What is printed of an accepted day.
struct View {
    book: Book,
    slips: Slips,
}

/// The slips are counted and not judged, or entered into a round.
enum Slips {
    Counted(usize),
    Entered(Round),
}

impl fmt::Display for View {
    fn fmt(&self, out: &mut fmt::Formatter) -> fmt::Result {
        print_sheds(&self.book, out)?;
        print_totals(&self.book, out)?;
        match &self.slips {
            Slips::Counted(words) => writeln!(out, "slip words: {words}"),
            Slips::Entered(round) => print_slips(round, out),
        }
    }
}

fn print_sheds(book: &Book, out: &mut fmt::Formatter) -> fmt::Result {
    // Lanes are numbered through all sheds.
    let mut first_lane = 0;
    for (number, shed) in book.sheds.iter().enumerate() {
        writeln!(out, "shed {number}: cap {}, lanes {}", shed.cap, shed.lanes.len())?;
        for (place, lane) in shed.lanes.iter().enumerate() {
            print_lane(first_lane + place, lane, out)?;
        }
        first_lane += shed.lanes.len();
    }
    Ok(())
}

fn print_lane(number: usize, lane: &Lane, out: &mut fmt::Formatter) -> fmt::Result {
    let (target, capacity, lots) = (lane.target, lane.capacity, lane.lots_ranked());
    writeln!(out, "  lane {number}: target {target}, capacity {capacity}, lots ranked {lots}")
}

fn print_totals(book: &Book, out: &mut fmt::Formatter) -> fmt::Result {
    let sheds = book.sheds.len();
    let lanes = book.lanes().count();
    let caps: u32 = book.sheds.iter().map(|shed| shed.cap).sum();
    let targets: u32 = book.lanes().map(|lane| lane.target).sum();
    let capacities: u32 = book.lanes().map(|lane| lane.capacity).sum();
    let lots: usize = book.lanes().map(|lane| lane.lots_ranked()).sum();
    write!(out, "totals: sheds {sheds}, lanes {lanes}, caps {caps}, ")?;
    writeln!(out, "targets {targets}, capacities {capacities}, lots ranked {lots}")
}

fn print_slips(round: &Round, out: &mut fmt::Formatter) -> fmt::Result {
    // Each slip has entered a lot of its own.
    writeln!(out, "slips: {}", round.entered().count())?;
    for lot in round.entered() {
        print_list(lot, round.wishes(lot), out)?;
    }
    Ok(())
}

fn print_list(lot: Lot, wishes: &[LaneNumber], out: &mut fmt::Formatter) -> fmt::Result {
    if wishes.is_empty() {
        return writeln!(out, "  lot {lot}: no wishes");
    }
    let lanes: Vec<String> = wishes.iter().map(LaneNumber::to_string).collect();
    writeln!(out, "  lot {lot}: wishes {}", lanes.join(", "))
}
