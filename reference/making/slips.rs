//! Good slips and good days.

use super::sheets::*;
use super::words::*;
use crate::chance::Chance;

pub fn slip(number: u32, wishes: impl IntoIterator<Item = u32>) -> Vec<u32> {
    [lot(number)].into_iter().chain(wishes.into_iter().map(wish)).collect()
}

/// A slip that wants so many lanes, each once.
pub fn long_slip(number: u32, wishes: usize, lanes: u32, chance: &mut Chance) -> Vec<u32> {
    slip(number, chance.shuffled(lanes as usize).into_iter().take(wishes))
}

/// A slip for each of these lots, for a book with so many lanes.
pub fn slips_of(lots: &[u32], lanes: u32, chance: &mut Chance) -> Vec<u32> {
    lots.iter().flat_map(|&lot| long_slip(lot, list_length(lanes, chance), lanes, chance)).collect()
}

/// All lots, each with as many wishes as there may be.
pub fn all_long_slips(lanes: u32, chance: &mut Chance) -> Vec<u32> {
    chance.shuffled(LOTS).into_iter().flat_map(|lot| long_slip(lot, MOST_WISHES, lanes, chance)).collect()
}

/// None, as many as there may be, and any.
fn list_length(lanes: u32, chance: &mut Chance) -> usize {
    let most = MOST_WISHES.min(lanes as usize);
    match chance.below(6) {
        0 => 0,
        1 | 2 => most,
        _ => chance.below(most + 1),
    }
}

/// Slips of different lots, mostly few.
pub fn good_slips(lanes: u32, chance: &mut Chance) -> Vec<u32> {
    if chance.one_in(5) {
        Vec::new()
    } else {
        some_slips(lanes, chance)
    }
}

/// Good slips, and one at least.
fn some_slips(lanes: u32, chance: &mut Chance) -> Vec<u32> {
    let slips = match chance.below(40) {
        0 => LOTS,
        1 => 1 + chance.below(LOTS),
        2..=9 => 5 + chance.below(20),
        _ => 1 + chance.below(4),
    };
    slips_of(&lots(slips, chance), lanes, chance)
}

/// Words that stand behind a fault. They are not reached, so any words will do.
pub fn unread_slips(lanes: u32, chance: &mut Chance) -> Vec<u32> {
    if chance.one_in(2) {
        good_slips(lanes, chance)
    } else {
        (0..chance.below(6)).map(|_| some_word(chance)).collect()
    }
}

/// A word that could stand somewhere in a day, or any bits at all.
pub fn some_word(chance: &mut Chance) -> u32 {
    match chance.below(8) {
        0 => shed(chance.value()),
        1 => lane(0, chance.value()),
        2 => lane(chance.up_to(3), chance.value()),
        3 => rank(chance.up_to(5)),
        4 | 5 => next(chance.up_to(255)),
        6 => with_kind(chance.up_to(9), 5 + chance.up_to(4)),
        _ => chance.any_word(),
    }
}

pub fn good_day(chance: &mut Chance) -> Day {
    let sheet = good_sheet(chance);
    let slips = good_slips(lanes_in(&sheet), chance);
    Day::new(sheet, slips)
}

/// A good day that has a slip. Half of the books have more lanes than a list has room for, so that a little damage
/// makes too many.
pub fn good_day_with_slips(chance: &mut Chance) -> Day {
    let sheet = match chance.below(4) {
        0 => all_lanes(chance),
        1 => sheds(&[MOST_LANES_OF_SHED, 0, 6], chance),
        _ => good_sheet(chance),
    };
    let slips = some_slips(lanes_in(&sheet), chance);
    Day::new(sheet, slips)
}
