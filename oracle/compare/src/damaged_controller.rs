//! Refusals of the controller: blocks with some word out of place or of another
//! length, memory and images of other lengths, moments from 2^32 s on, groups
//! with too many bits. Each call must answer the number of document 01's table,
//! the first in its order, or 20 for a block that holds no state, and then leave
//! everything lent as it was.
use crate::{
    block::{chip_of, limits, Block, CLOCK, READY, WORDS},
    call::{refused, Call, Ours, Step},
    lists,
    paper_controller::checks,
    random::Random,
    side::END,
    total, valid,
};
use nt7508::words::controller;
use original::ask::controller::Controller;
use std::collections::BTreeMap;

/// Changes one word: by 1, to a boundary of its field, or to anything.
fn damage(random: &mut Random, block: &mut Block, limits: &[u128; WORDS]) {
    let index = random.below(WORDS as u64) as usize;
    let old = block[index];
    let limit = limits[index];
    block[index] = match random.below(8) {
        0..=1 => old.wrapping_add(1),
        2..=3 => old.wrapping_sub(1),
        4 => random.pick(&[
            0, 2, 3, 4, 7, 8, 15, 16, 17, 32, 33, 34, 64, 127, 128, 129, 255,
        ]),
        5 => random.spread(1 << 64) as u64,
        6 => limit as u64,
        _ => random.below_wide(limit) as u64,
    };
}

fn length(random: &mut Random, right: usize) -> usize {
    let other = random.pick(&[0, right - 1, right + 1, 1, 2 * right]);
    if random.one_in(16) {
        other
    } else {
        right
    }
}

/// A moment about those that matter to a state, or a late one.
fn moment(random: &mut Random, block: &Block) -> u128 {
    match random.below(8) {
        0 => END,
        1 => END + random.spread(u128::MAX - END),
        _ => {
            let near = valid::near(random, &chip_of(block));
            lists::due(random, block, near, &[READY, CLOCK])
        }
    }
}

/// What is lent, with something out of place or nothing.
fn lent(random: &mut Random, mut block: Block, limits: &[u128; WORDS]) -> Ours {
    (0..random.below(4)).for_each(|_| damage(random, &mut block, limits));
    let mut block = block.to_vec();
    block.resize(length(random, WORDS), 1);
    Ours {
        block,
        ram: vec![0x5a; length(random, 4096)],
        icons: vec![1; length(random, 256)],
        image: vec![0x5a; length(random, 6144)],
    }
}

/// One call of each kind.
fn calls(random: &mut Random) -> [Call; 16] {
    let count = random.below(10) as u8;
    let bits = random.below(1 << (count + 1)) as u8;
    [
        Call::Rising(random.one_in(2)),
        Call::Group { bits, count },
        Call::Select(random.one_in(2)),
        Call::Data(random.one_in(2)),
        Call::Supply(random.pick(&[0, 1649, 1650, 3000])),
        Call::Temperature(random.next() as i32),
        Call::Lose,
        Call::AtDeadline,
        Call::Update,
        Call::Restore,
        Call::Drive,
        Call::Render,
        Call::Voltages,
        Call::Edges(random.one_in(2)),
        Call::Deadline,
        Call::Find(4_000_000, 4_100_000),
    ]
}

/// A call: true if its number is the table's and a refusal changes nothing.
fn one(lent: &Ours, step: &Step, counts: &mut BTreeMap<(&str, u64), u64>) -> bool {
    let mut after = lent.clone();
    let answer = after.ask(step);
    let number = checks(lent, step).err().unwrap_or(0);
    let good = match number {
        0 => answer.number == 0,
        _ => (answer, &after) == (refused(step.call, number), lent),
    };
    if good {
        *counts.entry((step.call.name(), number)).or_default() += 1;
        return true;
    }
    println!(
        "DIFFERENCE in {step:?}: the table {number}, ours {answer:?}, lent memory changed: {}",
        after != *lent
    );
    println!(
        "  ram {} icons {} image {} block {:?}",
        lent.ram.len(),
        lent.icons.len(),
        lent.image.len(),
        lent.block
    );
    false
}

/// `new` on blocks of any length and content.
fn new(random: &mut Random) -> bool {
    let power_on = crate::block::block(&Controller::new());
    (0..200).all(|length| {
        let before: Vec<u64> = (0..length).map(|_| random.next()).collect();
        let mut after = before.clone();
        let number = controller::new(&mut after);
        if length == WORDS {
            (number, &after[..]) == (0, &power_on[..])
        } else {
            (number, after) == (20, before)
        }
    })
}

/// Compares `count` questions with any numbers, each with one call of each kind.
/// True if nothing differs.
pub fn run(random: &mut Random, count: u64) -> bool {
    let mut counts = BTreeMap::new();
    let limits = limits();
    let mut good = new(random);
    println!(
        "{}new: 200 blocks compared",
        if good {
            "paper = ours: "
        } else {
            "DIFFERENCE in "
        }
    );
    for _ in 0..count {
        let block = lists::free(random).block;
        let now = moment(random, &block);
        let lent = lent(random, block, &limits);
        let all = calls(random);
        good = good
            && all
                .iter()
                .all(|call| one(&lent, &Step { now, call: *call }, &mut counts));
    }
    total::add(counts.values().sum());
    for call in calls(random) {
        let of_call = counts.iter().filter(|((name, _), _)| *name == call.name());
        let words: Vec<String> = of_call
            .map(|((_, number), count)| match number {
                0 => format!("{count} answered"),
                _ => format!("{count} refused as {number}"),
            })
            .collect();
        println!(
            "paper = ours: refusals of {}: {count} inputs compared ({})",
            call.name(),
            words.join(", ")
        );
    }
    good
}
