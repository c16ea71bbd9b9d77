//! Makes days to try a reader of days on: `makedays SEED COUNT DIR` writes DIR/00000.day, DIR/00001.day and so on. The
//! same seed gives the same days, and a day does not depend on how many are made.
//!
//! Good and bad days are mixed, most of them small. Which sort of day a number gets is fixed, so that every edge below
//! comes up within 1,800 days with every seed; what stands around the edge is left to chance.

mod chance;
mod making {
    pub mod damage;
    pub mod input_edges;
    pub mod sheet_edges;
    pub mod sheets;
    pub mod slip_edges;
    pub mod slips;
    pub mod words;
}

use chance::{of_turn, Chance};
use making::damage::{damaged_day, Part};
use making::input_edges::{FULL_SIZE_EDGES, INPUT_EDGES};
use making::slips::{good_day, good_day_with_slips};
use making::{sheet_edges, slip_edges};
use std::path::PathBuf;
use std::process::ExitCode;
use std::{env, fs, io};

fn main() -> ExitCode {
    let Some(order) = Order::from_arguments() else {
        eprintln!("usage: makedays SEED COUNT DIR");
        return ExitCode::from(2);
    };
    match order.carry_out() {
        Ok(()) => ExitCode::SUCCESS,
        Err(error) => {
            eprintln!("makedays: {error}");
            ExitCode::FAILURE
        }
    }
}

/// What the arguments ask for.
struct Order {
    seed: u64,
    count: usize,
    dir: PathBuf,
}

impl Order {
    fn from_arguments() -> Option<Order> {
        let arguments: Vec<String> = env::args().skip(1).collect();
        let [seed, count, dir] = arguments.as_slice() else {
            return None;
        };
        Some(Order { seed: seed.parse().ok()?, count: count.parse().ok()?, dir: dir.into() })
    }

    fn carry_out(&self) -> io::Result<()> {
        fs::create_dir_all(&self.dir)?;
        for number in 0..self.count {
            let mut chance = Chance::new(self.seed, number);
            fs::write(self.dir.join(format!("{number:05}.day")), bytes_of_day(number, &mut chance))?;
        }
        Ok(())
    }
}

/// Of every twenty days the number chooses the sort, and the twenties before it go through the edges of that sort one
/// after another. One day in eighty is of full size.
fn bytes_of_day(number: usize, chance: &mut Chance) -> Vec<u8> {
    let turn = number / 20;
    match number % 20 {
        0 => sheet_edges::faulty_edge(2 * turn, chance).bytes(),
        1 => sheet_edges::faulty_edge(2 * turn + 1, chance).bytes(),
        2 => sheet_edges::zero_bit_edge(turn, chance).bytes(),
        3 => sheet_edges::lawful_edge(turn, chance).bytes(),
        4 => slip_edges::faulty_edge(2 * turn, chance).bytes(),
        5 => slip_edges::faulty_edge(2 * turn + 1, chance).bytes(),
        6 => slip_edges::two_faults(2 * turn, chance).bytes(),
        7 => slip_edges::two_faults(2 * turn + 1, chance).bytes(),
        8 => slip_edges::zero_bit_edge(turn, chance).bytes(),
        9 => slip_edges::lawful_edge(turn, chance).bytes(),
        10 => of_turn(INPUT_EDGES, turn)(chance),
        11 if turn % 4 == 2 => of_turn(FULL_SIZE_EDGES, turn / 4)(chance),
        11..=13 => good_day(chance).bytes(),
        14 | 15 => good_day_with_slips(chance).bytes(),
        16 | 17 => damaged_day(Part::Sheet, chance),
        _ => damaged_day(Part::Slips, chance),
    }
}
