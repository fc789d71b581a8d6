//! The controller of the original against ours: lists of calls on both sides,
//! from power-on and from any state that passes document 01's checks, put into
//! the original by its image. After each call are compared: the number, what the
//! call gives, every field of the state, RAM and icons.
use crate::{
    block::{
        block, chip_of, fits, rate, show, state, Block, Place, BITS, CLOCK, COLD, LATCHED, PENDING,
        READY, SELECTED, SHIFT, SUPPLIED, SUPPLY, WORDS,
    },
    call::{Answer, Call, Ours, Step, Theirs},
    lists::{self, awaiting, Pace, Start},
    paper_controller,
    random::Random,
    shrink,
    side::END,
    total, valid,
};
use original::ask::{caught, clock::micros, controller::Controller};
use std::collections::BTreeMap;

/// Both sides in the same state.
struct Pair {
    theirs: Theirs,
    ours: Ours,
}

impl Pair {
    fn new(start: &Start) -> Self {
        let Start { block, ram, icons } = start;
        Self {
            theirs: Theirs::new(state(block, ram, icons)),
            ours: Ours {
                block: block.to_vec(),
                ram: ram.clone(),
                icons: icons.clone(),
                image: vec![0; 6144],
            },
        }
    }
    fn block(&self) -> &Block {
        self.ours.block[..].try_into().expect("a block")
    }
    /// Makes a call on both sides: what ours answers, or what differs.
    fn step(&mut self, step: &Step) -> Result<Answer, String> {
        let answer = self.ours.ask(step);
        let wanted = self.theirs.ask(step);
        if answer != wanted {
            return Err(format!("original {wanted:?}\n  ours     {answer:?}"));
        }
        let block = self.theirs.block();
        if self.ours.block != block {
            let ours = show(self.block());
            return Err(format!("state: original {}\n  ours {ours}", show(&block)));
        }
        self.memory()?;
        if step.call == Call::Render && self.theirs.image[..] != self.ours.image {
            return Err("the image".to_string());
        }
        Ok(answer)
    }
    fn memory(&self) -> Result<(), String> {
        let (ram, icons) = (self.theirs.state.ram(), self.theirs.state.icons());
        if self.ours.ram != ram || self.ours.icons != icons {
            let place = |a: &[u8], b: &[u8]| a.iter().zip(b).position(|(a, b)| a != b);
            let ram = place(&self.ours.ram, ram);
            let icons = place(&self.ours.icons, icons);
            return Err(format!("RAM from {ram:?}, icons from {icons:?}"));
        }
        Ok(())
    }
}

/// What the calls of all lists were, and what came of them.
#[derive(Default)]
struct Tally {
    calls: BTreeMap<&'static str, u64>,
    came: BTreeMap<&'static str, u64>,
}

impl Tally {
    fn add(&mut self, step: &Step, answer: &Answer, before: &Block, after: &Block) {
        *self.calls.entry(step.call.name()).or_default() += 1;
        let mut came = |name, is: bool| *self.came.entry(name).or_default() += u64::from(is);
        if let Call::Rising(_) | Call::Group { .. } = step.call {
            came("data events", answer.words[0] == 1);
            came("command events", answer.words[0] == 2);
            came("parameters", answer.words[4] == 1);
            let set = |place: Place| (place.get(before), place.get(after));
            came("bytes that await a parameter", set(PENDING) == (0, 1));
            came("rates of the scan changed", rate(before) != rate(after));
            came("clocks begun", set(CLOCK) == (0, 1));
            came("clocks dropped", set(CLOCK) == (1, 0));
            let (from, to) = (CLOCK.time(before), CLOCK.time(after));
            came(
                "scans counted",
                from.is_some() && to.is_some() && from != to,
            );
            came("latches retained", set(LATCHED) == (0, 1));
        }
        let (was, is) = (SUPPLIED.get(before), SUPPLIED.get(after));
        let cold = COLD.get(before) == 1 || matches!(step.call, Call::Supply(0));
        came("falls of the supply", (was, is) == (1, 0));
        came("cold rises", (was, is, cold) == (0, 1, true));
        came("warm rises", (was, is, cold) == (0, 1, false));
        let waits = (READY.get(before), READY.get(after));
        let ended = step.call == Call::AtDeadline && waits == (1, 0);
        came("waits ended", ended);
        came("restores refused as 6", answer.number == 6);
    }
    fn print(&self) {
        let calls: u64 = self.calls.values().sum();
        total::add(calls);
        for (name, count) in &self.calls {
            println!("original = ours: {name}: {count} calls compared");
        }
        println!("original = ours: the controller: {calls} calls compared");
        let came: Vec<String> = self
            .came
            .iter()
            .map(|(name, count)| format!("{count} {name}"))
            .collect();
        println!("among them {}", came.join(", "));
    }
}

/// Makes the calls that `next` gives, each by the state that the one before left.
/// Answers the calls that were made, and what differs after the last of them. A
/// panic of either side is a difference.
fn run(
    start: &Start,
    tally: &mut Tally,
    mut next: impl FnMut(&Block) -> Option<Step>,
) -> (Vec<Step>, Option<String>) {
    let mut made = Vec::new();
    let all = || {
        let mut pair = Pair::new(start);
        let mut before = start.block;
        while let Some(step) = next(&before) {
            made.push(step);
            let answer = match pair.step(&step) {
                Ok(answer) => answer,
                Err(words) => return Some(words),
            };
            let after = *pair.block();
            tally.add(&step, &answer, &before, &after);
            before = after;
        }
        None
    };
    let words = caught(all).unwrap_or_else(|words| Some(format!("panic: {words}")));
    (made, words)
}

/// What differs when these calls are made.
fn difference(start: &Start, steps: &[Step]) -> Option<String> {
    let mut steps = steps.iter().copied();
    run(start, &mut Tally::default(), |_| steps.next()).1
}

/// The start and the calls with these numbers for the block and the moments, if
/// no check turns them down.
fn renumbered(numbers: &[u128], start: &Start, steps: &[Step]) -> Option<(Start, Vec<Step>)> {
    let (words, moments) = numbers.split_at(WORDS);
    let mut block = [0; WORDS];
    for (word, number) in block.iter_mut().zip(words) {
        *word = u64::try_from(*number).ok()?;
    }
    let good = fits(&block)
        && paper_controller::state(&block).is_ok()
        && moments.iter().all(|now| *now < END);
    let moved = |(step, now): (&Step, &u128)| Step { now: *now, ..*step };
    good.then(|| {
        let start = Start {
            block,
            ..start.clone()
        };
        (start, steps.iter().zip(moments).map(moved).collect())
    })
}

/// The difference again, by fewer calls from a state as near to power-on as it
/// goes.
fn report(start: &Start, made: Vec<Step>) {
    let steps = shrink::list(made, |steps| difference(start, steps).is_some());
    let fails = |numbers: &[u128]| {
        renumbered(numbers, start, &steps)
            .is_some_and(|(start, steps)| difference(&start, &steps).is_some())
    };
    let mut numbers = start.block.map(u128::from).to_vec();
    numbers.extend(steps.iter().map(|step| step.now));
    let mut plain = block(&Controller::new()).map(u128::from).to_vec();
    plain.resize(numbers.len(), 0);
    let small = shrink::numbers(numbers, &plain, fails);
    let (mut start, steps) =
        renumbered(&small, start, &steps).unwrap_or_else(|| (start.clone(), steps.clone()));
    let empty = Start {
        ram: vec![0; 4096],
        icons: vec![0; 256],
        ..start.clone()
    };
    if difference(&empty, &steps).is_some() {
        start = empty;
    }
    let words = difference(&start, &steps).unwrap_or_default();
    println!("DIFFERENCE: {words}");
    println!("  calls {steps:?}");
    println!("  from power-on with {}", show(&start.block));
    println!("  ram from {:?}", &start.ram[..16]);
}

/// Compares a list; true if nothing differs.
fn same(start: &Start, tally: &mut Tally, next: impl FnMut(&Block) -> Option<Step>) -> bool {
    let (made, words) = run(start, tally, next);
    if words.is_none() {
        return true;
    }
    report(start, made);
    false
}

/// A list of random calls.
fn list(random: &mut Random, tally: &mut Tally, start: &Start, length: u64) -> bool {
    let mut pace = Pace {
        now: random.pick(&[0, micros(1), END / 2, END - (1 << 80)]),
        wild: random.one_in(4),
    };
    if CLOCK.get(&start.block) == 1 {
        pace.now = valid::moment(random, &chip_of(&start.block));
    }
    let mut left = length;
    same(start, tally, |block| {
        left = left.checked_sub(1)?;
        Some(lists::step(random, block, &mut pace))
    })
}

/// A state that takes bits.
fn taking(random: &mut Random) -> Start {
    let mut start = lists::free(random);
    SELECTED.put(&mut start.block, 1);
    READY.put_option::<2>(&mut start.block, None);
    if SUPPLIED.get(&start.block) == 0 {
        SUPPLIED.put(&mut start.block, 1);
        SUPPLY.put(&mut start.block, 3000);
    }
    start
}

/// Every byte with every awaited command and with none, as a command and as
/// data, each from a state of its own.
fn bytes(random: &mut Random, tally: &mut Tally) -> bool {
    let mut pending = vec![None];
    pending.extend(awaiting().into_iter().map(Some));
    pending.iter().all(|pending| {
        (0..=255).all(|byte| {
            let mut start = taking(random);
            BITS.put(&mut start.block, 0);
            SHIFT.put(&mut start.block, 0);
            PENDING.put_option(&mut start.block, pending.map(|byte| [u64::from(byte)]));
            let now = valid::moment(random, &chip_of(&start.block));
            let call = Call::Group {
                bits: byte,
                count: 8,
            };
            let mut steps = [Step { now, call }].into_iter();
            same(&start, tally, |_| steps.next())
        })
    })
}

/// Every group of every size at every fill of the byte.
fn groups(random: &mut Random, tally: &mut Tally) -> bool {
    (0..8).all(|held| {
        (0..=8).all(|count: u8| {
            (0..1u16 << count).all(|bits| {
                let mut start = taking(random);
                BITS.put(&mut start.block, held);
                let now = valid::moment(random, &chip_of(&start.block));
                let call = Call::Group {
                    bits: bits as u8,
                    count,
                };
                let mut steps = [Step { now, call }].into_iter();
                same(&start, tally, |_| steps.next())
            })
        })
    })
}

/// How many calls a list has.
const LENGTH: u64 = 50;

/// Compares `count` lists, a quarter of them from power-on, and every byte and
/// every group besides.
pub fn run_all(random: &mut Random, count: u64) -> bool {
    let mut tally = Tally::default();
    let mut good = (0..4).all(|_| bytes(random, &mut tally) && groups(random, &mut tally));
    for number in 0..count {
        let start = if number % 4 == 0 {
            lists::power_on(random)
        } else {
            lists::free(random)
        };
        good = good && list(random, &mut tally, &start, LENGTH);
    }
    tally.print();
    good
}

/// The driver itself: a word of which ours is told otherwise than the original
/// must be found, and so must a byte of memory.
#[cfg(test)]
mod tests {
    use super::*;

    /// Whether a difference is seen in some call of some list.
    fn found(seed: u64, told: impl Fn(&mut Ours)) -> bool {
        let mut random = Random::new(seed);
        (0..100).any(|_| {
            let start = lists::free(&mut random);
            let mut pair = Pair::new(&start);
            told(&mut pair.ours);
            let mut pace = Pace {
                now: 0,
                wild: false,
            };
            (0..4).any(|_| {
                let step = lists::step(&mut random, pair.block(), &mut pace);
                pair.step(&step).is_err()
            })
        })
    }

    #[test]
    fn every_word_matters() {
        original::ask::quiet_panics();
        let missed: Vec<usize> = (0..WORDS)
            .filter(|index| !found(*index as u64, |ours| ours.block[*index] ^= 1))
            .collect();
        assert_eq!(missed, []);
        assert!(found(1, |ours| ours.ram[4095] ^= 1));
        assert!(found(1, |ours| ours.icons[255] ^= 1));
        assert!(!found(1, |_| ()));
    }
}
