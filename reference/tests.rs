//! Tests of the second opinion itself: worked cases, every refusal of slips, rounds and plans at its edge, and the
//! tuned round against one that follows the words of docs/RULES.md step by step. Built by `rustc --test`.

// Not all that the programs use is used here.
#![allow(dead_code)]

mod book;
mod chance;
mod check;
mod day;
mod fault;
mod input;
mod layout;
mod plan;
mod round;
mod rules;
mod set;
mod slip;
mod word;

use book::Book;
use chance::Chance;
use check::{check, Verdict};
use day::Day;
use fault::{Fault, Refusal};
use round::{Applied, Issued, Line, Round};
use rules::{Card, Rule, Terms};
use slip::Lot;

const RULES: [Rule; 2] = [Rule::Turns, Rule::Shares];

// The rules

fn card(cap: i64, lanes: &[(i64, i64)]) -> Card {
    Card { cap, lanes: lanes.iter().map(|&(capacity, target)| Terms { capacity, target }).collect() }
}

#[test]
fn worked_choices() {
    let lanes = [(4, 0), (2, 0)];
    assert_eq!(Rule::Turns.choice(&card(4, &lanes), &[4, 2]), [2, 2]);
    assert_eq!(Rule::Shares.choice(&card(4, &lanes), &[4, 2]), [3, 1]);
    assert_eq!(Rule::Turns.choice(&card(3, &lanes), &[4, 2]), [2, 1]);
    assert_eq!(Rule::Turns.choice(&card(2, &[(4, 0), (2, 2)]), &[4, 1]), [1, 1]);
}

#[test]
fn worked_gains() {
    let card = card(4, &[(4, 0), (2, 0)]);
    assert!(Rule::Turns.gain(&card, &[3, 1], 0, 1));
    assert!(!Rule::Turns.gain(&card, &[2, 1], 0, 1));
    assert!(!Rule::Shares.gain(&card, &[3, 1], 0, 1));
    assert!(Rule::Shares.gain(&card, &[4, 0], 0, 1));
    assert!(!Rule::Turns.gain(&card, &[4, 0], 0, 2));
    assert!(!Rule::Turns.gain(&card, &[4, 0], 0, 0));
}

/// Small numbers, so that lanes often tie.
fn any_card(chance: &mut Chance) -> Card {
    let cap = chance.below(12) as i64;
    let mut card = card(cap, &[]);
    for _ in 0..chance.below(6) {
        let capacity = chance.below(7) as i64;
        let most = capacity.min(cap - card.targets());
        card.lanes.push(Terms { capacity, target: chance.below(most as usize + 1) as i64 });
    }
    card
}

fn any_supply(card: &Card, chance: &mut Chance) -> Vec<i64> {
    card.lanes.iter().map(|_| chance.below(9) as i64).collect()
}

#[test]
fn both_rules_keep_the_laws() {
    for number in 0..20_000 {
        let mut chance = Chance::new(1, number);
        let card = any_card(&mut chance);
        let more = any_supply(&card, &mut chance);
        let fewer: Vec<i64> = more.iter().map(|&lots| chance.below(lots as usize + 1) as i64).collect();
        for rule in RULES {
            check_laws(rule, &card, &fewer, &more);
        }
    }
}

fn check_laws(rule: Rule, card: &Card, fewer: &[i64], more: &[i64]) {
    let kept = rule.choice(card, more);
    let kept_of_fewer = rule.choice(card, fewer);
    let stored: i64 = kept.iter().sum();
    assert!(stored <= card.cap);
    for (b, terms) in card.lanes.iter().enumerate() {
        let room = more[b].min(terms.capacity);
        assert!(kept[b] <= room);
        assert!(kept_of_fewer[b] >= fewer[b].min(kept[b]));
        if kept[b] < room {
            assert_eq!(stored, card.cap);
            assert!((0..card.lanes.len()).all(|a| !rule.gain(card, &kept, a, b)));
        }
    }
}

// Worked days

const DAY_A: &str = "0000000e 10000002 20001002 20000001 10000001 20000001 30000000 40000001 40000004 40000002 \
    30000001 40000003 30000002 40000002 40000001 50000001 60000002 60000000 50000002 60000000 60000002 50000003 \
    60000001 50000004 60000000";

/// Day A with the first shed's two lanes in the other order.
const DAY_B: &str = "0000000e 10000002 20000001 20001002 10000001 20000001 30000001 40000001 40000004 40000002 \
    30000000 40000003 30000002 40000002 40000001 50000001 60000002 60000001 50000002 60000001 60000002 50000003 \
    60000000 50000004 60000001";

fn words(text: &str) -> Vec<u32> {
    text.split_whitespace().map(|word| u32::from_str_radix(word, 16).unwrap()).collect()
}

fn bytes(text: &str) -> Vec<u8> {
    words(text).iter().flat_map(|word| word.to_be_bytes()).collect()
}

fn book(sheet: &str) -> Book {
    book::open(&words(sheet)).unwrap()
}

fn issued(book: &Book, rule: Rule, slips: &[u32]) -> Issued {
    let mut round = Round::begin(book, rule);
    for (_, slip) in slip::cut(slips) {
        round.enter(slip).unwrap();
    }
    round.issue()
}

fn issued_day(text: &str, rule: Rule) -> Issued {
    let day = Day::read(&bytes(text)).unwrap();
    day.begin_round(&day.open_book().unwrap(), rule).unwrap().issue()
}

#[test]
fn worked_plans() {
    let plan_a = words("70002001 70000002 80000003 70000004 90000004");
    let plan_b = words("70001001 70002002 70000003 80000004 90000006");
    assert_eq!(issued_day(DAY_A, Rule::Turns).plan(), plan_a);
    assert_eq!(issued_day(DAY_B, Rule::Turns).plan(), plan_b);
}

#[test]
fn a_day_without_slips_has_a_plan() {
    assert_eq!(issued(&book(""), Rule::Shares, &[]).plan(), words("90000000"));
}

/// Both lanes rank lot 0, which is on lane 1 and would rather be on lane 0.
#[test]
fn worked_checks() {
    let offered = words("70001000 90000000");
    let slip = words("50000000 60000000 60000001");
    let even = issued(&book("10000001 20000001 20000001 30000000 40000000 30000001 40000000"), Rule::Turns, &slip);
    assert_eq!(check(&even, &offered), Ok(Verdict::Sound));
    let targeted = issued(&book("10000001 20001001 20000001 30000000 40000000 30000001 40000000"), Rule::Turns, &slip);
    assert_eq!(check(&targeted, &offered), Ok(Verdict::Pair { lot: 0, lane: 0 }));
}

// Refusals of slips

/// Two lanes; lot 9 is entered.
fn round_with_lot_9() -> Round {
    let mut round = Round::begin(&book("10000002 20000001 20000001 30000000 40000009"), Rule::Turns);
    round.enter(&words("50000009 60000000")).unwrap();
    round
}

fn assert_refused(answer: Result<impl std::fmt::Debug, Fault>, refusal: Refusal, place: usize) {
    assert_eq!(answer.unwrap_err(), Fault { refusal, place });
}

fn assert_slip_refused(slip: &str, refusal: Refusal, place: usize) {
    let mut round = round_with_lot_9();
    assert_refused(round.enter(&words(slip)), refusal, place);
    // The round is as it was: lot 8, which most of these slips begin with, is absent, and one lot looks.
    assert_eq!(round.line(8), Line::Absent);
    assert_eq!(round.settle(), 1);
}

#[test]
fn strange_words_on_slips() {
    for first in ["00000008", "10000008", "40000008", "70000008", "f0000008", "50001008", "58000008", "61000000"] {
        assert_slip_refused(first, Refusal::Strange, 0);
    }
    for later in ["00000000", "40000000", "70000000", "60001000", "68000000", "50001008"] {
        assert_slip_refused(&format!("50000008 60000001 {later}"), Refusal::Strange, 2);
    }
}

#[test]
fn misplaced_words_on_slips() {
    assert_slip_refused("", Refusal::Misplaced, 0);
    assert_slip_refused("60000000", Refusal::Misplaced, 0);
    assert_slip_refused("60000fff", Refusal::Misplaced, 0);
    assert_slip_refused("50000008 50000007", Refusal::Misplaced, 1);
    assert_slip_refused("50000008 60000000 50000fff", Refusal::Misplaced, 2);
}

/// A slip of lot 0 that wants the first lanes.
fn long_slip(wishes: u32) -> Vec<u32> {
    [0x5000_0000].into_iter().chain((0..wishes).map(|lane| 0x6000_0000 | lane)).collect()
}

#[test]
fn too_many_wishes() {
    let sheds = "10000000 20000000 20000000 20000000 20000000 20000000 20000000 20000000 ".repeat(2);
    let mut round = Round::begin(&book(&sheds), Rule::Turns);
    assert_refused(round.enter(&long_slip(13)), Refusal::TooMany, 13);
    let mut refused = |last, refusal| assert_refused(round.enter(&[long_slip(12), vec![last]].concat()), refusal, 13);
    refused(0x6000_0fff, Refusal::TooMany);
    refused(0x6000_0000, Refusal::TooMany);
    refused(0x5000_0000, Refusal::Misplaced);
    refused(0x6100_0000, Refusal::Strange);
    assert_eq!(round.enter(&long_slip(12)), Ok(()));
}

#[test]
fn unknown_lots_and_lanes() {
    assert_slip_refused("50000100", Refusal::Unknown, 0);
    assert_slip_refused("50000fff 60000002", Refusal::Unknown, 0);
    assert_slip_refused("50000008 60000002", Refusal::Unknown, 1);
    assert_slip_refused("50000008 60000001 60000100", Refusal::Unknown, 2);
}

#[test]
fn lots_and_lanes_twice() {
    assert_slip_refused("50000009", Refusal::Twice, 0);
    assert_slip_refused("50000009 60000002", Refusal::Twice, 0);
    assert_slip_refused("50000008 60000001 60000001", Refusal::Twice, 2);
    assert_slip_refused("50000008 60000001 60000000 60000001 60000002", Refusal::Twice, 3);
    // However the lot fared, it stays entered.
    let mut round = round_with_lot_9();
    round.settle();
    assert_refused(round.enter(&words("50000009")), Refusal::Twice, 0);
}

#[test]
fn slips_are_cut_before_words_of_kind_5() {
    let cut = |text| slip::cut(&words(text)).map(|(place, slip)| (place, slip.len())).collect::<Vec<_>>();
    assert_eq!(cut(""), []);
    assert_eq!(cut("50000001"), [(0, 1)]);
    assert_eq!(cut("60000000 00000000 50000001 60000001 5fffffff 50000000"), [(0, 2), (2, 2), (4, 1), (5, 1)]);
}

// Days

/// The day with the first word `first` and so many bytes behind it, and how many bytes of it are read.
fn bytes_read(first: u32, behind: usize) -> usize {
    let day = [first.to_be_bytes().to_vec(), vec![0; behind]].concat();
    let read = input::read_from(&day[..]).unwrap();
    assert_eq!(read, day[..read.len()]);
    read.len()
}

#[test]
fn no_more_is_read_than_is_needed() {
    assert_eq!(input::read_from(&[0; 3][..]).unwrap(), [0; 3]);
    assert_eq!(bytes_read(0, 0), 4);
    assert_eq!(bytes_read(0, 46_368), 46_372);
    assert_eq!(bytes_read(0, 46_369), 46_373);
    assert_eq!(bytes_read(11_592, 60_000), 46_373);
    assert_eq!(bytes_read(11_593, 60_000), 4);
    assert_eq!(bytes_read(u32::MAX, 60_000), 4);
}

fn judged(day: &str) -> Result<Round, Fault> {
    let day = Day::read(&bytes(day))?;
    day.begin_round(&day.open_book()?, Rule::Turns)
}

#[test]
fn places_count_from_the_first_word_of_the_input() {
    assert_refused(judged("00000001"), Refusal::Ragged, 0);
    assert_refused(judged("00000001 50000000"), Refusal::Strange, 1);
    assert_refused(judged("00000001 10000000 10000000"), Refusal::Strange, 2);
    assert_refused(judged("00000000 60000000 50000001"), Refusal::Misplaced, 1);
    assert_refused(judged("00000002 10000000 20000000 50000001 60000001"), Refusal::Unknown, 4);
    assert_refused(judged("00000002 10000000 20000000 50000001 60000000 50000001"), Refusal::Twice, 5);
}

/// Not the one with the smallest number.
#[test]
fn the_first_refusal_is_told() {
    assert_refused(judged("00000000 50000001 50000001 50001002"), Refusal::Twice, 2);
    assert_refused(judged("00000000 50000001 50001002 50000001"), Refusal::Strange, 2);
    assert_refused(judged("00000002 10000000 20001000 50001002"), Refusal::Overtargeted, 2);
}

#[test]
fn entered_lots_come_by_number_with_their_lists() {
    let round = judged("00000003 10000000 20000000 20000000 500000ff 60000001 60000000 50000000").unwrap();
    assert_eq!(round.entered().collect::<Vec<Lot>>(), [0, 255]);
    assert_eq!(round.wishes(255), [1, 0]);
    assert!(round.wishes(0).is_empty());
}

// Rounds

#[test]
fn lots_that_do_not_look_are_idle() {
    let mut round = round_with_lot_9();
    for number in [8, 255, 256, 256 + 9, u32::MAX] {
        assert_refused(round.apply(number), Refusal::Idle, 0);
    }
    assert_eq!(round.applications(), 0);
    assert_eq!(round.apply(9), Ok(Applied::Taken));
    assert_refused(round.apply(9), Refusal::Idle, 0);
    assert_eq!((round.applications(), round.line(9), round.lane_of(9)), (1, Line::Held, Some(0)));
}

#[test]
fn a_lot_without_wishes_is_spent() {
    let mut round = round_with_lot_9();
    round.enter(&words("50000008")).unwrap();
    assert_eq!(round.line(8), Line::Spent);
    assert_refused(round.apply(8), Refusal::Idle, 0);
    assert_eq!(round.issue().plan(), words("80000008 70000009 90000001"));
}

/// Lane 0 has the target, so that lot 0 there puts out lot 1 on the other lane.
#[test]
fn a_lot_of_another_lane_may_be_dropped() {
    let book = book("10000001 20001001 20000001 30000000 40000000 30000001 40000001");
    let mut round = Round::begin(&book, Rule::Turns);
    round.enter(&words("50000001 60000001")).unwrap();
    round.enter(&words("50000000 60000000")).unwrap();
    assert_eq!(round.apply(1), Ok(Applied::Taken));
    assert_eq!(round.apply(0), Ok(Applied::TakenFor(1)));
    assert_eq!(round.line(1), Line::Spent);
    assert_eq!(round.settle(), 0);
}

#[test]
fn no_room_turns_lots_away() {
    for sheet in ["10000000 20000001 30000000 40000009", "10000001 20000000 30000000 40000009", "10000001 20000001"] {
        let mut round = Round::begin(&book(sheet), Rule::Shares);
        round.enter(&words("50000009 60000000")).unwrap();
        assert_eq!(round.apply(9), Ok(Applied::TurnedAway));
        assert_eq!(round.issue().plan(), words("80000009 90000001"));
    }
}

#[test]
fn a_short_buffer_stays_as_it_was() {
    let issued = round_with_lot_9().issue();
    let mut short = [7; 1];
    assert_refused(issued.write_plan(&mut short), Refusal::Short, 0);
    assert_eq!(short, [7; 1]);
    let mut long = [7; 3];
    assert_eq!(issued.write_plan(&mut long), Ok(2));
    assert_eq!(long, [0x7000_0009, 0x9000_0001, 7]);
}

// Offered plans

#[test]
fn words_that_are_no_plan() {
    let issued = issued_day(DAY_A, Rule::Turns);
    let refused = |text, place| assert_refused(check(&issued, &words(text)), Refusal::Misfit, place);
    refused("", 0);
    refused("80000001", 1);
    refused("80000001 80000002 80000003 80000004", 4);
    refused("80000001 80000002 80000003 80000004 90000000 90000000", 5);
    refused("80000001 80000002 80000003 80000004 90000000 80000005", 5);
    refused("80000001 80000002 80000003 80000004 80000005 90000000", 4);
    refused("80000001 80000002 80000003 90000000", 3);
    refused("80000000 80000001 80000002 80000003 80000004 90000000", 0);
    refused("80000002 80000001 80000003 80000004 90000000", 0);
    refused("80000001 80000001 80000003 80000004 90000000", 1);
    refused("80000001 70003002 80000003 80000004 90000000", 1);
    refused("80000001 71000002 80000003 80000004 90000000", 1);
    refused("80000001 80001002 80000003 80000004 90000000", 1);
    refused("80000001 50000002 80000003 80000004 90000000", 1);
    refused("80000001 80000102 80000003 80000004 90000000", 1);
    assert!(check(&issued, &words("80000001 80000002 80000003 80000004 9fffffff")).is_ok());
}

#[test]
fn each_verdict_in_its_turn() {
    let issued = issued_day(DAY_A, Rule::Turns);
    let verdict = |text| check(&issued, &words(text)).unwrap();
    assert_eq!(verdict("70002001 70000002 80000003 70000004 90000004"), Verdict::Sound);
    // Lot 3 does not want lane 0, and lane 0 does not rank it.
    assert_eq!(verdict("70002001 80000002 70000003 80000004 90000000"), Verdict::Unlisted(3));
    // All three on lane 0, which has two places; with two of them and lot 3 it is the shed that is overfull.
    assert_eq!(verdict("70000001 70000002 80000003 70000004 90000000"), Verdict::OverfullLane(0));
    assert_eq!(verdict("70002001 70000002 70001003 70000004 90000000"), Verdict::OverfullShed(0));
    assert_eq!(verdict("80000001 80000002 80000003 80000004 90000000"), Verdict::Pair { lot: 1, lane: 2 });
    // Lane 2 would rather have lot 2, which has nothing; lot 2's first wish is lane 0, which has room.
    assert_eq!(verdict("70002001 80000002 80000003 70000004 90000000"), Verdict::Pair { lot: 2, lane: 0 });
    // Lot 3 and lot 4 both came to a full shed, and lane 0 would rather have lot 4 than lot 2.
    assert_eq!(verdict("70002001 70000002 70001003 80000004 90000000"), Verdict::Pair { lot: 4, lane: 0 });
}

/// Lane 0 ranks both lots and lane 1 ranks none. Lot 0 wants lane 0 and then lane 1, lot 1 wants lane 1.
#[test]
fn a_lane_has_to_be_listed_and_to_rank_the_lot() {
    let book = book("10000002 20000002 20000002 30000000 40000000 40000001");
    let issued = issued(&book, Rule::Turns, &words("50000000 60000000 60000001 50000001 60000001"));
    let verdict = |text| check(&issued, &words(text)).unwrap();
    assert_eq!(verdict("70000000 80000001 90000000"), Verdict::Sound);
    assert_eq!(verdict("70001000 80000001 90000000"), Verdict::Unlisted(0));
    assert_eq!(verdict("70000000 70000001 90000000"), Verdict::Unlisted(1));
    assert_eq!(verdict("70000000 70001001 90000000"), Verdict::Unlisted(1));
}

/// Lane 1 has a target and holds nothing, but its shed holds its cap. Lot 1 wants it and has lane 2 in another shed, so
/// what the first shed would gain by a move is not asked.
#[test]
fn a_full_shed_excuses_lots_of_other_sheds() {
    let rankings = "30000000 40000000 30000001 40000001 30000002 40000001";
    let book = book(&format!("10000001 20000001 20001001 10000001 20000001 {rankings}"));
    let issued = issued(&book, Rule::Turns, &words("50000000 60000000 50000001 60000001 60000002"));
    assert_eq!(check(&issued, &words("70000000 70002001 90000000")), Ok(Verdict::Sound));
    assert_eq!(check(&issued, &words("80000000 70002001 90000000")), Ok(Verdict::Pair { lot: 0, lane: 0 }));
    assert_eq!(issued.plan(), words("80000000 70001001 90000002"));
}

// Any day

#[test]
fn sets_have_a_lowest_and_a_highest() {
    for number in 0..=255 {
        for other in 0..=255 {
            let mut set = set::Set::default();
            set.insert(number);
            set.insert(other);
            assert_eq!((set.lowest(), set.highest()), (Some(number.min(other)), Some(number.max(other))));
            set.remove(number);
            assert_eq!(set.contains(other), number != other);
            assert_eq!(set.lowest(), Some(other).filter(|_| number != other));
        }
    }
}

fn any_book(lots: u32, chance: &mut Chance) -> Book {
    let mut words = Vec::new();
    let mut lanes = 0;
    for _ in 0..1 + chance.below(3) {
        let card = any_card(chance);
        words.push(0x1000_0000 | card.cap as u32);
        words.extend(card.lanes.iter().map(|lane| 0x2000_0000 | (lane.target << 12 | lane.capacity) as u32));
        lanes += card.lanes.len() as u32;
    }
    for lane in 0..lanes {
        words.push(0x3000_0000 | lane);
        words.extend(some_of(lots, lots as usize, chance).iter().map(|lot| 0x4000_0000 | lot));
    }
    book::open(&words).unwrap()
}

/// Up to so many different numbers below `end`, in any order.
fn some_of(end: u32, most: usize, chance: &mut Chance) -> Vec<u32> {
    let mut numbers: Vec<u32> = (0..end).collect();
    for last in (1..numbers.len()).rev() {
        numbers.swap(last, chance.below(last + 1));
    }
    numbers.truncate(chance.below(most + 1));
    numbers
}

fn any_slips(lots: u32, lanes: u32, chance: &mut Chance) -> Vec<(u32, Vec<u32>)> {
    some_of(lots, lots as usize, chance).into_iter().map(|lot| (lot, some_of(lanes, 12, chance))).collect()
}

fn slip_words(lot: u32, list: &[u32]) -> Vec<u32> {
    [0x5000_0000 | lot].into_iter().chain(list.iter().map(|lane| 0x6000_0000 | lane)).collect()
}

/// A round that does what the rules say, step by step and with every choice lined up.
struct PlainRound<'a> {
    book: &'a Book,
    rule: Rule,
    /// For each lane, by shed and place on the card, the lots that it holds.
    held: Vec<Vec<Vec<u32>>>,
}

impl PlainRound<'_> {
    fn begin(book: &Book, rule: Rule) -> PlainRound<'_> {
        let held = book.sheds.iter().map(|shed| vec![Vec::new(); shed.lanes.len()]).collect();
        PlainRound { book, rule, held }
    }

    /// Those that are turned away, which the lot itself may be one of.
    fn apply(&mut self, lot: u32, lane: u32) -> Vec<u32> {
        let places = self.book.sheds.iter().enumerate();
        let mut places = places.flat_map(|(shed, lanes)| (0..lanes.lanes.len()).map(move |place| (shed, place)));
        let (shed, place) = places.nth(lane as usize).unwrap();
        let lanes = &self.book.sheds[shed].lanes;
        if !ranking(&lanes[place]).contains(&lot) {
            return vec![lot];
        }
        let held = &mut self.held[shed];
        held[place].push(lot);
        let terms: Vec<(i64, i64)> = lanes.iter().map(|lane| (lane.capacity.into(), lane.target.into())).collect();
        let supply: Vec<i64> = held.iter().map(|lots| lots.len() as i64).collect();
        let kept = self.rule.choice(&card(self.book.sheds[shed].cap.into(), &terms), &supply);
        let mut turned_away = Vec::new();
        for ((lots, lane), kept) in held.iter_mut().zip(lanes).zip(kept) {
            lots.sort_by_key(|lot| ranking(lane).iter().position(|ranked| ranked == lot));
            turned_away.extend(lots.split_off(kept as usize));
        }
        turned_away
    }
}

fn ranking(lane: &book::Lane) -> &[u32] {
    lane.ranking.as_deref().unwrap_or_default()
}

/// Applies lots in any order until none looks. Each application comes to the same in both rounds.
fn run_both(mut round: Round, book: &Book, rule: Rule, slips: &[(u32, Vec<u32>)], chance: &mut Chance) -> Round {
    let mut plain = PlainRound::begin(book, rule);
    let mut lists: Vec<(u32, Vec<u32>)> = slips.to_vec();
    loop {
        let looking: Vec<u32> = (0..256).filter(|&lot| round.line(lot as Lot) == Line::Looking).collect();
        if looking.is_empty() {
            return round;
        }
        let lot = chance.pick(&looking);
        let list = &mut lists.iter_mut().find(|(number, _)| *number == lot).unwrap().1;
        let applied = match plain.apply(lot, list.remove(0))[..] {
            [] => Applied::Taken,
            [dropped] if dropped == lot => Applied::TurnedAway,
            [dropped] => Applied::TakenFor(dropped as Lot),
            _ => panic!("two lots dropped for one"),
        };
        assert_eq!(round.apply(lot), Ok(applied));
    }
}

#[test]
fn any_day_goes_by_the_words_and_its_plan_is_stable() {
    for number in 0..3000 {
        let mut chance = Chance::new(2, number);
        let lots = if number % 30 == 0 { 256 } else { 24 };
        let book = any_book(lots, &mut chance);
        let slips = any_slips(lots, book.lanes().count() as u32, &mut chance);
        for rule in RULES {
            let mut round = Round::begin(&book, rule);
            for (lot, list) in &slips {
                round.enter(&slip_words(*lot, list)).unwrap();
            }
            let run = run_both(round.clone(), &book, rule, &slips, &mut chance);
            let settled = round.issue();
            assert_eq!(check(&settled, &settled.plan()), Ok(Verdict::Sound));
            // The order of applications does not matter, to the plan or to the count.
            assert_eq!(run.issue().plan(), settled.plan());
        }
    }
}
