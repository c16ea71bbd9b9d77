//! Makes lines to try a reader of questions to the rules on: `maketables SEED COUNT` prints COUNT lines. The same seed
//! gives the same lines, and a line does not depend on how many are made. The last line ends with the input, unless it
//! is empty and has to have its newline to be a line.
//!
//! Six lines in ten are questions, most of them small, and most of the others are not. Which sort of line a number gets
//! is fixed, so that every edge below comes up within 10,000 lines with every seed; what stands around it is left to
//! chance.

mod chance;

use chance::{of_turn, Chance};
use std::io::{self, BufWriter, Write};
use std::process::ExitCode;
use std::{env, iter};

const MOST_LANES: usize = 8;
const HIGHEST_ON_CARD: u32 = 4095;
const HIGHEST_NUMBER: u32 = 65_535;

fn main() -> ExitCode {
    let Some(order) = Order::from_arguments() else {
        eprintln!("usage: maketables SEED COUNT");
        return ExitCode::from(2);
    };
    match order.carry_out() {
        Ok(()) => ExitCode::SUCCESS,
        Err(error) => {
            eprintln!("maketables: {error}");
            ExitCode::FAILURE
        }
    }
}

/// What the arguments ask for.
struct Order {
    seed: u64,
    count: usize,
}

impl Order {
    fn from_arguments() -> Option<Order> {
        let arguments: Vec<String> = env::args().skip(1).collect();
        let [seed, count] = arguments.as_slice() else {
            return None;
        };
        Some(Order { seed: seed.parse().ok()?, count: count.parse().ok()? })
    }

    fn carry_out(&self) -> io::Result<()> {
        let mut output = BufWriter::new(io::stdout().lock());
        for number in 0..self.count {
            let line = without_newlines(line(number, &mut Chance::new(self.seed, number)));
            output.write_all(&line)?;
            if line.is_empty() || number + 1 < self.count {
                output.write_all(b"\n")?;
            }
        }
        output.flush()
    }
}

/// Damage may have put a newline into a line, which would make two lines of it.
fn without_newlines(mut line: Vec<u8>) -> Vec<u8> {
    line.retain(|&byte| byte != b'\n');
    line
}

/// Of every ten lines the last digit of the number chooses the sort, and the digits before it go through the edges of
/// that sort one after another.
fn line(number: usize, chance: &mut Chance) -> Vec<u8> {
    let turn = number / 10;
    match number % 10 {
        digit @ 0..=4 => plain(&of_turn(QUESTIONS, 5 * turn + digit)(chance).words()),
        5 => oddly_spelled(of_turn(QUESTIONS, turn)(chance), chance),
        6 => plain(&with_more_behind(faulty(turn, chance), chance)),
        7 => plain(&with_more_behind(twice_faulty(turn, chance), chance)),
        8 => damaged(chance),
        _ => of_turn(ODDITIES, turn)(turn / ODDITIES.len(), chance),
    }
}

// Lines and questions

/// The words of a line. They may be faulty, but have no blanks in them.
type Words = Vec<Vec<u8>>;

/// The line with one space between each two words.
fn plain(words: &[Vec<u8>]) -> Vec<u8> {
    words.join(&b' ')
}

fn with(mut words: Words, more: &[&[u8]]) -> Words {
    words.extend(more.iter().map(|word| word.to_vec()));
    words
}

#[derive(Clone, Copy)]
struct Lane {
    capacity: u32,
    target: u32,
    number: u32,
}

#[derive(Clone)]
struct Question {
    cap: u32,
    lanes: Vec<Lane>,
    asked_move: Option<(u32, u32)>,
}

impl Lane {
    fn word(self) -> Vec<u8> {
        lane_word(self.capacity, self.target, self.number)
    }

    /// What the lane would keep if it were alone.
    fn wants(self) -> u32 {
        self.capacity.min(self.number)
    }
}

impl Question {
    fn words(&self) -> Words {
        let mut words = vec![number_word(self.cap)];
        words.extend(self.lanes.iter().map(|lane| lane.word()));
        words.extend(self.asked_move.map(|(a, b)| move_word(a, b)));
        words
    }

    fn targets(&self) -> u32 {
        self.lanes.iter().map(|lane| lane.target).sum()
    }
}

fn number_word(number: u32) -> Vec<u8> {
    number.to_string().into_bytes()
}

fn lane_word(capacity: u32, target: u32, number: u32) -> Vec<u8> {
    format!("{capacity}/{target}/{number}").into_bytes()
}

fn move_word(a: u32, b: u32) -> Vec<u8> {
    format!("{a}>{b}").into_bytes()
}

// Questions

type Make = fn(&mut Chance) -> Question;

/// Questions of all shapes. The small ones stand here more than once.
const QUESTIONS: &[Make] = &[
    small,
    tight,
    |chance| with_any_move(tight(chance), chance),
    no_lanes,
    |chance| with_any_move(small(chance), chance),
    alike,
    |chance| with_any_move(alike(chance), chance),
    multiples,
    tight_multiples,
    small,
    targets_fill_the_cap,
    |chance| with_any_move(targets_fill_the_cap(chance), chance),
    targets_fill_the_lanes,
    tight,
    empty_lanes,
    |chance| with_any_move(overfull(chance), chance),
    |chance| turn_move_at_the_edge(small(chance), chance),
    |chance| turn_move_at_the_edge(targets_fill_the_cap(chance), chance),
    |chance| share_move_at_the_edge(small(chance), chance),
    |chance| share_move_at_the_edge(multiples(chance), chance),
    |chance| share_move_at_the_edge(targets_fill_the_cap(chance), chance),
    about_256,
    |chance| with_any_move(about_256(chance), chance),
    more_than_fits,
    small,
    |chance| with_any_move(any_numbers(chance), chance),
    tight_multiples,
    thousands,
    |chance| with_any_move(multiples(chance), chance),
    |chance| turn_move_at_the_edge(about_256(chance), chance),
    |chance| share_move_at_the_edge(about_256(chance), chance),
    |chance| with_any_move(overfull(chance), chance),
    |chance| with_move_to_itself(small(chance), chance),
    |chance| with_move_off_the_card(alike(chance), chance),
    |chance| if chance.one_in(2) { largest(chance) } else { small(chance) },
    |chance| if chance.one_in(4) { share_move_at_the_edge(thousands(chance), chance) } else { tight(chance) },
];

/// So many lanes, each made by itself, without targets.
fn lanes(count: usize, chance: &mut Chance, lane: fn(&mut Chance) -> (u32, u32)) -> Vec<Lane> {
    let mut lanes = Vec::new();
    for _ in 0..count {
        let (capacity, number) = lane(chance);
        lanes.push(Lane { capacity, target: 0, number });
    }
    lanes
}

/// One lane or more, and often many.
fn some(chance: &mut Chance) -> usize {
    1 + chance.below(MOST_LANES)
}

/// A question with targets that fit. A third of them are as large as they can be.
fn with_targets(cap: u32, mut lanes: Vec<Lane>, chance: &mut Chance) -> Question {
    let mut left = cap;
    for lane in &mut lanes {
        let most = left.min(lane.capacity);
        lane.target = match chance.below(3) {
            0 => 0,
            1 => most,
            _ => chance.up_to(most.min(1 + lane.capacity / 2)),
        };
        left -= lane.target;
    }
    Question { cap, lanes, asked_move: None }
}

/// All that the lanes could keep, as far as a cap goes.
fn all_wanted(lanes: &[Lane]) -> u32 {
    lanes.iter().map(|lane| lane.wants()).sum::<u32>().min(HIGHEST_ON_CARD)
}

fn no_lanes(chance: &mut Chance) -> Question {
    let question = Question { cap: on_card(chance), lanes: Vec::new(), asked_move: None };
    with_any_move(question, chance)
}

fn small(chance: &mut Chance) -> Question {
    let count = some(chance);
    let lanes = lanes(count, chance, |chance| (chance.up_to(9), chance.up_to(12)));
    with_targets(chance.up_to(6 * count as u32), lanes, chance)
}

/// The cap turns away one lot, or a few: what a rule is asked when a lot applies.
fn tight(chance: &mut Chance) -> Question {
    let count = some(chance);
    let lanes = lanes(count, chance, |chance| (1 + chance.up_to(6), chance.up_to(8)));
    let cap = all_wanted(&lanes).saturating_sub(chance.pick(&[0, 1, 1, 1, 2, 5]));
    with_targets(cap, lanes, chance)
}

/// Lanes with the same terms, so that only their order tells them apart.
fn alike(chance: &mut Chance) -> Question {
    let count = some(chance);
    let (capacity, target) = (1 + chance.up_to(7), chance.up_to(1));
    let mut lanes = lanes(count, chance, |chance| (0, chance.up_to(10)));
    for lane in &mut lanes {
        (lane.capacity, lane.target) = (capacity, target);
    }
    let least = target * count as u32;
    Question { cap: least + chance.up_to(3 * count as u32), lanes, asked_move: None }
}

/// Capacities with common divisors, so that many places have the same share.
fn multiples(chance: &mut Chance) -> Question {
    let count = some(chance);
    let lanes = lanes(count, chance, |chance| {
        let capacity = chance.pick(&[1, 2, 2, 3, 4, 4, 6, 8, 12]);
        (capacity, chance.up_to(capacity + 1))
    });
    let cap = chance.up_to(all_wanted(&lanes));
    Question { cap, lanes, asked_move: None }
}

/// Lanes with common divisors that all want all of their places.
fn tight_multiples(chance: &mut Chance) -> Question {
    let mut question = multiples(chance);
    for lane in &mut question.lanes {
        lane.number = lane.capacity;
    }
    let cap = 1 + chance.up_to(all_wanted(&question.lanes) - 1);
    with_targets(cap, question.lanes, chance)
}

/// The targets sum to the cap and not to one less.
fn targets_fill_the_cap(chance: &mut Chance) -> Question {
    let mut question = small(chance);
    question.cap = question.targets();
    question
}

fn targets_fill_the_lanes(chance: &mut Chance) -> Question {
    let mut question = small(chance);
    for lane in &mut question.lanes {
        lane.target = lane.capacity;
    }
    question.cap = question.targets() + chance.up_to(1);
    question
}

/// Some lanes without room.
fn empty_lanes(chance: &mut Chance) -> Question {
    let count = some(chance);
    let lanes = lanes(count, chance, |chance| (chance.pick(&[0, 0, 1, 5]), chance.up_to(6)));
    let cap = chance.up_to(8);
    let question = with_targets(cap, lanes, chance);
    with_any_move(question, chance)
}

/// Numbers above the capacities, as no round has them.
fn overfull(chance: &mut Chance) -> Question {
    let mut question = small(chance);
    for lane in &mut question.lanes {
        if chance.one_in(2) {
            lane.number = lane.capacity + chance.up_to(3);
        }
    }
    question
}

/// As many lots as there are in a day, or nearly.
fn about_256(chance: &mut Chance) -> Question {
    let count = some(chance);
    let lanes = lanes(count, chance, |chance| {
        let capacity = chance.pick(&[100, 255, 256, 257, 300, 1000, HIGHEST_ON_CARD]);
        (capacity, chance.pick(&[0, 1, 200, 254, 255, 256, 257, 258]))
    });
    let cap = chance.up_to(all_wanted(&lanes));
    with_targets(cap, lanes, chance)
}

/// Small lanes and supplies that they are nowhere near to hold.
fn more_than_fits(chance: &mut Chance) -> Question {
    let count = some(chance);
    let lanes = lanes(count, chance, |chance| (chance.up_to(20), far_number(chance)));
    let cap = chance.up_to(all_wanted(&lanes));
    let question = with_targets(cap, lanes, chance);
    with_any_move(question, chance)
}

/// Any numbers at all, often small ones.
fn any_numbers(chance: &mut Chance) -> Question {
    let count = 1 + chance.below(4);
    let lanes = lanes(count, chance, |chance| (on_card(chance), any_number(chance)));
    let cap = on_card(chance);
    with_targets(cap, lanes, chance)
}

fn thousands(chance: &mut Chance) -> Question {
    let count = 1 + chance.below(3);
    let lanes = lanes(count, chance, |chance| (1000 + chance.up_to(HIGHEST_ON_CARD - 1000), 800 + chance.up_to(5000)));
    let cap = chance.up_to(all_wanted(&lanes));
    with_targets(cap, lanes, chance)
}

/// As many places as there can be.
fn largest(chance: &mut Chance) -> Question {
    let lanes = lanes(MOST_LANES, chance, |chance| {
        (
            HIGHEST_ON_CARD - chance.pick(&[0, 0, 1, 5]),
            chance.pick(&[HIGHEST_ON_CARD, HIGHEST_ON_CARD + 1, HIGHEST_NUMBER]),
        )
    });
    let cap = HIGHEST_ON_CARD - chance.pick(&[0, 0, 1, 95]);
    if chance.one_in(2) {
        with_targets(cap, lanes, chance)
    } else {
        Question { cap, lanes, asked_move: None }
    }
}

/// A cap or a capacity.
fn on_card(chance: &mut Chance) -> u32 {
    match chance.below(8) {
        0 => 0,
        1 => HIGHEST_ON_CARD - chance.up_to(1),
        2..=5 => chance.up_to(9),
        _ => chance.up_to(HIGHEST_ON_CARD),
    }
}

/// A supply or a filling.
fn any_number(chance: &mut Chance) -> u32 {
    match chance.below(6) {
        0 => 0,
        1 | 2 => chance.up_to(9),
        3 => chance.up_to(300),
        _ => far_number(chance),
    }
}

fn far_number(chance: &mut Chance) -> u32 {
    match chance.below(3) {
        0 => chance.pick(&[255, 256, 257, 511, 512]),
        1 => chance.pick(&[4094, 4095, 4096, 32767, 32768, HIGHEST_NUMBER - 1, HIGHEST_NUMBER]),
        _ => chance.up_to(HIGHEST_NUMBER),
    }
}

// Moves

fn with_move(question: Question, a: u32, b: u32) -> Question {
    Question { asked_move: Some((a, b)), ..question }
}

fn with_any_move(question: Question, chance: &mut Chance) -> Question {
    match chance.below(8) {
        0 => with_move_to_itself(question, chance),
        1 => with_move_off_the_card(question, chance),
        _ => {
            let (a, b) = two_lanes(&question, chance);
            with_move(question, a, b)
        }
    }
}

fn with_move_to_itself(question: Question, chance: &mut Chance) -> Question {
    let lane = any_lane(&question, chance);
    with_move(question, lane, lane)
}

/// One of the lanes is not on the card, or both. The larger ones look right to whoever drops their high bits.
fn with_move_off_the_card(question: Question, chance: &mut Chance) -> Question {
    let on = any_lane(&question, chance);
    let off = match chance.below(3) {
        0 => question.lanes.len() as u32,
        1 => on + chance.pick(&[8, 16, 256, 4096, 32768]),
        _ => HIGHEST_NUMBER - chance.up_to(1),
    };
    match chance.below(3) {
        0 => with_move(question, on, off),
        1 => with_move(question, off, on),
        _ => with_move(question, off, off),
    }
}

/// The first lane where there is none.
fn any_lane(question: &Question, chance: &mut Chance) -> u32 {
    chance.below(question.lanes.len().max(1)) as u32
}

/// Two lanes, not the same one if there are two.
fn two_lanes(question: &Question, chance: &mut Chance) -> (u32, u32) {
    let count = question.lanes.len().max(1);
    let a = chance.below(count);
    let further = if count > 1 { 1 + chance.below(count - 1) } else { 0 };
    (a as u32, ((a + further) % count) as u32)
}

/// A move that is just a gain by turns, or just not.
fn turn_move_at_the_edge(question: Question, chance: &mut Chance) -> Question {
    move_at_the_edge(question, chance, |beyond, _, _| beyond)
}

/// A move that is just a gain by shares, or just not.
fn share_move_at_the_edge(question: Question, chance: &mut Chance) -> Question {
    move_at_the_edge(question, chance, |beyond, a, b| {
        (beyond * i64::from(a.capacity)).div_euclid(i64::from(b.capacity).max(1))
    })
}

/// Fills lane b below its capacity, and lane a so far that one lot less is as far beyond its target as `level` says, or
/// one more or less. `level` is told how far b is beyond its target with one lot more. Below a target this is negative.
fn move_at_the_edge(mut question: Question, chance: &mut Chance, level: fn(i64, Lane, Lane) -> i64) -> Question {
    let (a, b) = two_lanes(&question, chance);
    let (a, b) = (a as usize, b as usize);
    let lanes = &mut question.lanes;
    lanes[b].number = chance.up_to(lanes[b].capacity.max(1) - 1);
    let beyond = i64::from(lanes[b].number) + 1 - i64::from(lanes[b].target);
    let level = level(beyond, lanes[a], lanes[b]) + chance.pick(&[-1, 0, 0, 0, 1]);
    lanes[a].number = (level + 1 + i64::from(lanes[a].target)).clamp(0, HIGHEST_NUMBER.into()) as u32;
    with_move(question, a as u32, b as u32)
}

// Other spellings of questions

/// The same question with more blanks of all sorts and with leading zeros.
fn oddly_spelled(question: Question, chance: &mut Chance) -> Vec<u8> {
    let mut words = question.words();
    if !chance.one_in(3) {
        words = words.iter().map(|word| with_leading_zeros(word, chance)).collect();
    }
    if chance.one_in(3) {
        return ended_by_carriage_return(&words);
    }
    with_more_blanks(&words, chance)
}

/// Zeros before some of the numbers in the word.
fn with_leading_zeros(word: &[u8], chance: &mut Chance) -> Vec<u8> {
    let mut spelled = Vec::new();
    let mut in_number = false;
    for &byte in word {
        if byte.is_ascii_digit() && !in_number && chance.one_in(2) {
            let zeros = chance.pick(&[1, 1, 2, 5, 6, 20]);
            spelled.extend(vec![b'0'; zeros]);
        }
        in_number = byte.is_ascii_digit();
        spelled.push(byte);
    }
    spelled
}

fn ended_by_carriage_return(words: &[Vec<u8>]) -> Vec<u8> {
    [plain(words), b"\r".to_vec()].concat()
}

/// Blanks between the words, and maybe at both ends.
fn with_more_blanks(words: &[Vec<u8>], chance: &mut Chance) -> Vec<u8> {
    let mut line = blanks(chance.pick(&[0, 0, 1, 3]), chance);
    for word in words {
        line.extend(word);
        line.extend(blanks(chance.pick(&[1, 1, 2, 4]), chance));
    }
    if chance.one_in(2) {
        line.pop();
    }
    line
}

fn blanks(count: usize, chance: &mut Chance) -> Vec<u8> {
    (0..count).map(|_| chance.pick(b"  \t\r")).collect()
}

// Words with a fault. A list is one text, with a space between each two of its words.

/// No number up to 4,095.
const BAD_CAPS: &[u8] = b"4096 4097 8191 65535 65536 65540 4294967296 4294967300 18446744073709551616 \
    18446744073709551620 340282366920938463463374607431768211460 0004096 00000065536 -1 +4 -0 4. 4.0 4,095 0x4 1e3 4_0 \
    x cap 4x x4 '4' 4>0 > 4/0/4 / 4/ \0 4\0 \x004 4\x0b 4\x0c 4\x7f 4\x80 \xff \xa04 \xc2\xa04 \xd9\xa4 \xe2\x88\x924 \
    \xef\xbb\xbf4 4\xef\xbc\x94";

/// Moves that are not two numbers with one `>` between them.
const BAD_MOVES: &[u8] = b"> >> 0> >0 0>>1 0>1> >0>1 0>1>2 65536>0 0>65536 65537>65536 000065536>0 0>4294967296 \
    4294967296>0 18446744073709551616>1 0>18446744073709551617 -1>0 0>-1 +0>1 0>+1 0->1 0=>1 a>b 0>1x x0>1 0.0>1 \
    4/0/4> >4/0/4 4/0>/4 4>0/4 4/0/4>1 0>1/2 0/1>2 />/ 0>/ \0>1 0>\0 0>1\0 \xff>0 0>\xff 0\x0b>1";

/// Lanes that are not three numbers with two `/` between them. None has a `>`.
const BAD_LANES: &[u8] = b"4 0 4/0 4/0/ /0/4 4//4 // /// / 4/ /4 4/0/4/ 4/0/4/0 /4/0/4 4/0//4 4//0/4 4/0/4/0/4 \
    65536/0/0 4/65536/0 4/0/65536 65540/0/0 4/0/65540 65536/65536/65536 000065536/0/0 4294967300/0/1 4/4294967296/1 \
    4/0/4294967297 18446744073709551620/0/1 4/18446744073709551616/1 4/0/18446744073709551617 -4/0/4 4/-0/4 4/0/-4 \
    +4/0/4 4/0/+4 a/b/c x lane 4/0/x 4/x/4 x/0/4 4/0/4x 4,0,4 4-0-4 4:0:4 4\\0\\4 4/0/4. 4/0/4, 4/0.0/4 4<0 0-1 # \0 \
    4/0/4\0 \x004/0/4 4/\0/4 4/0/4\x0b 4\x0c/0/4 \xff 4/0/\xff \x80/0/4 4/0/4\xc2\xa0 4\xe2\x81\x840\xe2\x81\x844 \
    4/\xd9\xa0/4";

const HIGH_CAPACITIES: &[u8] = b"4096/0/0 4096/0/1 4096/4096/4096 4097/1/1 8191/0/0 8192/8193/0 65535/0/0 \
    65535/65535/65535 04096/0/0 4096/65535/0";

const HIGH_TARGETS: &[u8] = b"0/1/0 1/2/0 1/2/2 4/5/4 9/10/9 10/9999/0 255/256/1 4094/4095/1 4095/4096/1 \
    4095/65535/65535 0/65535/0 00/01/0";

fn listed(list: &'static [u8]) -> Vec<&'static [u8]> {
    list.split(|&byte| byte == b' ').collect()
}

fn cut(text: &'static [u8]) -> Words {
    listed(text).into_iter().map(<[u8]>::to_vec).collect()
}

fn any_of(list: &'static [u8], chance: &mut Chance) -> &'static [u8] {
    chance.pick(&listed(list))
}

// Lines with a fault

type Faulty = fn(usize, &mut Chance) -> Words;

/// Lines with one fault or more, by the fault that is told.
const FAULTY: &[Faulty] =
    &[no_word, bad_cap, word_behind_the_move, bad_move, ninth_lane, bad_lane, high_capacity, high_target, high_targets];

fn faulty(turn: usize, chance: &mut Chance) -> Words {
    of_turn(FAULTY, turn)(turn / FAULTY.len(), chance)
}

/// A question without a move, to which one lane at least may be added.
fn beginning(chance: &mut Chance) -> Words {
    let mut question = if chance.one_in(3) { any_numbers(chance) } else { small(chance) };
    question.lanes.truncate(chance.below(MOST_LANES));
    question.words()
}

/// As many lanes as there may be.
fn all_lanes(chance: &mut Chance) -> Question {
    let lanes = lanes(MOST_LANES, chance, |chance| (chance.up_to(5), chance.up_to(6)));
    let cap = chance.up_to(30);
    with_targets(cap, lanes, chance)
}

/// Blanks alone, or nothing.
fn no_word(turn: usize, chance: &mut Chance) -> Words {
    vec![blanks(turn % 4, chance)]
}

fn bad_cap(turn: usize, chance: &mut Chance) -> Words {
    let mut words = beginning(chance);
    words[0] = of_turn(&listed(BAD_CAPS), turn).to_vec();
    words
}

fn word_behind_the_move(turn: usize, chance: &mut Chance) -> Words {
    let question = if chance.one_in(4) { all_lanes(chance) } else { small(chance) };
    let words = with_any_move(question, chance).words();
    match turn % 4 {
        0 => with(words, &[b"4/0/4"]),
        1 => with(words, &[b"0>1"]),
        2 => with(words, &[any_of(BAD_MOVES, chance)]),
        _ => with(words, &[any_of(BAD_LANES, chance)]),
    }
}

fn bad_move(turn: usize, chance: &mut Chance) -> Words {
    let words = if chance.one_in(4) { all_lanes(chance).words() } else { beginning(chance) };
    with(words, &[of_turn(&listed(BAD_MOVES), turn)])
}

fn ninth_lane(turn: usize, chance: &mut Chance) -> Words {
    let words = all_lanes(chance).words();
    match turn % 4 {
        0 | 1 => with(words, &[b"4/0/4"]),
        2 => with(words, &[any_of(BAD_LANES, chance)]),
        _ => with(words, &[any_of(HIGH_TARGETS, chance), any_of(HIGH_CAPACITIES, chance)]),
    }
}

fn bad_lane(turn: usize, chance: &mut Chance) -> Words {
    with(beginning(chance), &[of_turn(&listed(BAD_LANES), turn)])
}

fn high_capacity(turn: usize, chance: &mut Chance) -> Words {
    with(beginning(chance), &[of_turn(&listed(HIGH_CAPACITIES), turn)])
}

fn high_target(turn: usize, chance: &mut Chance) -> Words {
    with(beginning(chance), &[of_turn(&listed(HIGH_TARGETS), turn)])
}

fn high_targets(turn: usize, chance: &mut Chance) -> Words {
    match turn % 6 {
        0 => cut(b"0 1/1/1"),
        1 => cut(b"4095 4095/4095/0 0/0/0 1/1/1"),
        2 => cut(b"4094 4095/4095/4095"),
        3 => cut(b"7 1/1/1 1/1/1 1/1/1 1/1/1 1/1/1 1/1/1 1/1/1 1/1/1"),
        4 => cut(b"4095 4095/4095/1 4095/4095/1 4095/4095/1"),
        _ => one_target_too_high(chance),
    }
}

/// Targets that fill the cap, one of them raised by one.
fn one_target_too_high(chance: &mut Chance) -> Words {
    let mut question = targets_fill_the_cap(chance);
    let lane = any_lane(&question, chance) as usize;
    question.lanes[lane].capacity += 1;
    question.lanes[lane].target += 1;
    question.words()
}

// Lines with two faults

type Trouble = fn(&mut Chance) -> Words;

/// Words that are faulty behind a few lanes, or make the next one faulty.
const TROUBLES: &[Trouble] = &[
    |chance| vec![any_of(BAD_LANES, chance).to_vec()],
    |chance| vec![any_of(BAD_MOVES, chance).to_vec()],
    |chance| vec![any_of(HIGH_CAPACITIES, chance).to_vec()],
    |chance| vec![any_of(HIGH_TARGETS, chance).to_vec()],
    |_| cut(b"4095/4095/1 1/1/1"),
    |_| cut(b"0>1"),
    |_| cut(b"1/0/1 1/0/1 1/0/1 1/0/1 1/0/1 1/0/1 1/0/1 1/0/1 1/0/1"),
];

/// Each trouble before each other, itself included. In one line of eight the cap is bad as well.
fn twice_faulty(turn: usize, chance: &mut Chance) -> Words {
    let mut words = beginning(chance);
    words.truncate(1 + chance.below(4));
    if turn % 8 == 7 {
        words[0] = any_of(BAD_CAPS, chance).to_vec();
    }
    words.extend(of_turn(TROUBLES, turn)(chance));
    if chance.one_in(3) {
        words.push(b"2/0/3".to_vec());
    }
    words.extend(of_turn(TROUBLES, turn / TROUBLES.len())(chance));
    words
}

/// What stands behind a fault is not reached, so anything may stand there.
fn with_more_behind(mut words: Words, chance: &mut Chance) -> Words {
    if words.iter().any(|word| !word.is_empty()) && chance.one_in(3) {
        words.extend(small(chance).words());
    }
    words
}

// Damaged lines

/// A question with a few bytes or words hurt. Some are questions still.
fn damaged(chance: &mut Chance) -> Vec<u8> {
    let question = chance.pick(&[small, tight, any_numbers, all_lanes, about_256])(chance);
    let mut words = with_any_move(question, chance).words();
    if chance.one_in(4) {
        damage_words(&mut words, chance);
    }
    let mut line = if chance.one_in(3) { with_more_blanks(&words, chance) } else { plain(&words) };
    for _ in 0..1 + chance.below(2) {
        damage_bytes(&mut line, chance);
    }
    line
}

fn damage_words(words: &mut Words, chance: &mut Chance) {
    let at = chance.below(words.len());
    let other = chance.below(words.len());
    match chance.below(3) {
        0 => drop(words.remove(at)),
        1 => words.insert(other, words[at].clone()),
        _ => words.swap(at, other),
    }
}

fn damage_bytes(line: &mut Vec<u8>, chance: &mut Chance) {
    if line.is_empty() {
        return;
    }
    let at = chance.below(line.len());
    match chance.below(6) {
        0 => line[at] ^= 1 << chance.below(8),
        1 => drop(line.remove(at)),
        2 => line.insert(at, line[at]),
        3 => line[at] = telling_byte(chance),
        4 => line.insert(at, telling_byte(chance)),
        _ => {
            let other = chance.below(line.len());
            line.swap(at, other);
        }
    }
}

/// A byte that a reader could take for another one.
fn telling_byte(chance: &mut Chance) -> u8 {
    chance.pick(b"//>>009  \t\r\0-+.,:;<=?\x0b\x0c\x1f\x7f\x80\xa0\xaf\xb0\xbe\xff")
}

// Oddities

type Oddity = fn(usize, &mut Chance) -> Vec<u8>;

const ODDITIES: &[Oddity] = &[
    |_, chance| soup(b"0123456789//> ", chance),
    |_, chance| edge_numbers(chance),
    |_, chance| soup(b"01/> \t\r\0\xff-", chance),
    |_, chance| edge_numbers(chance),
    |_, chance| with_number_in(long_digits(b'0', chance), chance),
    |_, chance| any_bytes(chance),
    |_, chance| with_number_in(long_digits(b'9', chance), chance),
    |_, chance| words_run_together(chance),
    |turn, chance| if turn % 16 == 0 { very_long(turn / 16, chance) } else { edge_numbers(chance) },
    |_, _| Vec::new(),
    |_, chance| ended_by_carriage_return(&small(chance).words()),
    |_, chance| with_more_blanks(&faulty(chance.below(1000), chance), chance),
];

fn soup(bytes: &[u8], chance: &mut Chance) -> Vec<u8> {
    (0..chance.below(30)).map(|_| chance.pick(bytes)).collect()
}

fn any_bytes(chance: &mut Chance) -> Vec<u8> {
    (0..chance.below(40)).map(|_| chance.below(256) as u8).collect()
}

/// Every number is on an edge, so that one line in a few is a question.
fn edge_numbers(chance: &mut Chance) -> Vec<u8> {
    let edge = |chance: &mut Chance| chance.pick(&[0, 1, 256, 4095, 4095, 4096, 65535, 65536]);
    let mut words = vec![number_word(if chance.one_in(4) { edge(chance) } else { HIGHEST_ON_CARD })];
    for _ in 0..chance.below(3) {
        let target = if chance.one_in(2) { edge(chance) } else { 0 };
        words.push(lane_word(edge(chance), target, edge(chance)));
    }
    if chance.one_in(2) {
        words.push(move_word(edge(chance), edge(chance)));
    }
    plain(&words)
}

/// A number that goes on with many equal digits. If they are zeros it is 7 in the end.
fn long_digits(digit: u8, chance: &mut Chance) -> Vec<u8> {
    let digits = chance.pick(&[6, 10, 11, 20, 21, 39, 40, 100, 300]);
    [vec![digit; digits], b"7".to_vec()].concat()
}

/// The number stands somewhere in a question: for the cap, in a lane or in the move.
fn with_number_in(number: Vec<u8>, chance: &mut Chance) -> Vec<u8> {
    let mut words = beginning(chance);
    let (before, behind): (&[u8], &[u8]) = match chance.below(6) {
        0 => (b"", b""),
        1 => (b"", b"/0/3"),
        2 => (b"9/", b"/3"),
        3 => (b"9/0/", b""),
        4 => (b"", b">0"),
        _ => (b"0>", b""),
    };
    let word = [before, &number, behind].concat();
    if word == number {
        words[0] = word;
    } else {
        words.push(word);
    }
    plain(&words)
}

/// Some words without a blank between them.
fn words_run_together(chance: &mut Chance) -> Vec<u8> {
    let mut words = with_any_move(small(chance), chance).words();
    let at = chance.below(words.len() - 1);
    let next = words.remove(at + 1);
    words[at].extend(next);
    plain(&words)
}

/// Lines that are longer than a reader may have thought.
fn very_long(turn: usize, chance: &mut Chance) -> Vec<u8> {
    let length = 65_000 + chance.below(2000);
    let words = small(chance).words();
    match turn % 5 {
        0 => [plain(&words), blanks(length, chance)].concat(),
        1 => [blanks(length, chance), plain(&words)].concat(),
        2 => [vec![b'0'; length], plain(&words)].concat(),
        3 => plain(&with(words, &[&vec![b'x'; length]])),
        _ => iter::repeat_n(b"1/0/1 ", length / 6).flatten().copied().collect(),
    }
}
