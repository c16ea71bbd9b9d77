//! Plans a whole day: `planner RULE`, where the rule is `turns` or `shares`, reads a day from standard input and prints
//! the plan, one word a line in eight hexadecimal digits, or the one line that says why the day is refused. Written
//! from docs/ alone.

// Lots are not applied one by one here, and plans are not read.
#![allow(dead_code)]

mod book;
mod day;
mod fault;
mod input;
mod layout;
mod plan;
mod round;
mod rules;
mod set;
mod slip;
mod word;

use day::Day;
use fault::Fault;
use rules::Rule;
use std::env;
use std::io::{self, Write};
use std::process::ExitCode;

fn main() -> ExitCode {
    let Some(rule) = rule_from_arguments() else {
        eprintln!("usage: planner turns|shares");
        return ExitCode::from(2);
    };
    match answer(rule) {
        Ok(()) => ExitCode::SUCCESS,
        Err(error) => {
            eprintln!("planner: {error}");
            ExitCode::FAILURE
        }
    }
}

fn rule_from_arguments() -> Option<Rule> {
    let arguments: Vec<String> = env::args().skip(1).collect();
    match arguments.as_slice() {
        [name] if name == "turns" => Some(Rule::Turns),
        [name] if name == "shares" => Some(Rule::Shares),
        _ => None,
    }
}

/// Both answers end with status 0: a refusal is an answer.
fn answer(rule: Rule) -> io::Result<()> {
    let lines = match plan_day(&input::read()?, rule) {
        Ok(plan) => plan.iter().map(|word| format!("{word:08x}\n")).collect(),
        Err(fault) => format!("{fault}\n"),
    };
    io::stdout().write_all(lines.as_bytes())
}

fn plan_day(bytes: &[u8], rule: Rule) -> Result<Vec<u32>, Fault> {
    let day = Day::read(bytes)?;
    let book = day.open_book()?;
    let round = day.begin_round(&book, rule)?;
    Ok(round.issue().plan())
}
