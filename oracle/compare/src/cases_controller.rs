//! The fixed lists of the controller: a state in which a list starts, then calls,
//! each on what the one before left, with the original's answers. Now and then a
//! call is one that document 01's table turns down. Memory is made by a rule;
//! what a call gives, the state, RAM and icons after it are summed up, so that a
//! line stays short.
use crate::{
    block::{chip_of, state, Block, CLOCK},
    call::{Call, Ours, Step, Theirs},
    cases::List,
    cases_scan::{memory, sum},
    ffi::words,
    lists::{self, Pace},
    paper_controller::checks,
    random::Random,
    side::END,
    valid,
};
use original::ask::clock::micros;

/// The number of a call, and its two numbers.
fn call_numbers(call: Call) -> [u64; 3] {
    match call {
        Call::Rising(bit) => [0, u64::from(bit), 0],
        Call::Group { bits, count } => [1, u64::from(bits), u64::from(count)],
        Call::Select(on) => [2, u64::from(on), 0],
        Call::Data(on) => [3, u64::from(on), 0],
        Call::Supply(rail) => [4, u64::from(rail), 0],
        Call::Temperature(millicelsius) => [5, u64::from(millicelsius as u32 ^ 1 << 31), 0],
        Call::Lose => [6, 0, 0],
        Call::AtDeadline => [7, 0, 0],
        Call::Update => [8, 0, 0],
        Call::Restore => [9, 0, 0],
        Call::Drive => [10, 0, 0],
        Call::Render => [11, 0, 0],
        Call::Voltages => [12, 0, 0],
        Call::Edges(high) => [13, u64::from(high), 0],
        Call::Deadline => [14, 0, 0],
        Call::Find(low, high) => [15, u64::from(low), u64::from(high)],
    }
}

/// How many words a call gives.
fn gives(call: Call) -> usize {
    match call {
        Call::Rising(_) | Call::Group { .. } => 8,
        Call::Drive => 13,
        Call::Voltages => 7,
        Call::Deadline => 3,
        Call::Update | Call::Edges(_) | Call::Find(..) => 1,
        _ => 0,
    }
}

pub fn sum_of_words(words: &[u64]) -> u64 {
    sum(words
        .iter()
        .flat_map(|word| [word >> 32, word & 0xffff_ffff]))
}

pub fn sum_of(bytes: &[u8]) -> u64 {
    sum(bytes.iter().copied().map(u64::from))
}

/// A call that some check turns down, in most states.
fn bad(random: &mut Random, step: Step) -> Step {
    let count = random.below(10) as u8;
    let bits = random.next() as u8;
    match random.below(3) {
        0 => Step {
            call: Call::Group { bits, count },
            ..step
        },
        1 => Step { now: END, ..step },
        _ => Step {
            now: END + random.spread(u128::MAX - END),
            ..step
        },
    }
}

/// The line of a call, which the original makes unless it is turned down.
fn line(list: &mut List, theirs: &mut Theirs, step: &Step) -> Block {
    let before = Ours {
        block: theirs.block().to_vec(),
        ram: theirs.state.ram().to_vec(),
        icons: theirs.state.icons().to_vec(),
        image: vec![0; 6144],
    };
    let (mut number, mut given) = (checks(&before, step).err().unwrap_or(0), 0);
    if number == 0 {
        let answer = theirs.ask(step);
        number = answer.number;
        given = match step.call {
            Call::Render => sum_of(&theirs.image),
            call => sum_of_words(&answer.words[..gives(call)]),
        };
    }
    let after = theirs.block();
    let mut numbers = vec![8];
    numbers.extend(call_numbers(step.call));
    numbers.extend(words(step.now));
    numbers.extend([number, given, sum_of_words(&after)]);
    numbers.extend([sum_of(theirs.state.ram()), sum_of(theirs.state.icons())]);
    list.line(&numbers);
    after
}

/// How many calls a list has.
const LENGTH: u64 = 50;

/// `count` lists, a quarter of them from power-on.
pub fn controller(seed: u64, count: u64) -> bool {
    let mut out = List::new();
    let mut random = Random::new(seed);
    for number in 0..count {
        let start = if number % 4 == 0 {
            lists::power_on(&mut random)
        } else {
            lists::free(&mut random)
        };
        let [step, first] = [random.below(251), random.below(251)];
        let (ram, icons) = (memory(step, first, 4096), memory(step, first + 1, 256));
        let mut theirs = Theirs::new(state(&start.block, &ram, &icons));
        let mut numbers = vec![7];
        numbers.extend(start.block);
        numbers.extend([step, first]);
        out.line(&numbers);
        let mut block = start.block;
        let mut pace = Pace {
            now: random.pick(&[0, micros(1), END / 2]),
            wild: random.one_in(4),
        };
        if CLOCK.get(&block) == 1 {
            pace.now = valid::moment(&mut random, &chip_of(&block));
        }
        for _ in 0..LENGTH {
            let mut step = lists::step(&mut random, &block, &mut pace);
            if random.one_in(16) {
                step = bad(&mut random, step);
            }
            block = line(&mut out, &mut theirs, &step);
        }
    }
    out.print()
}
