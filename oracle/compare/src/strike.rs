//! Demand 3, that nothing that looks disturbs: random lists from power-on, whole
//! and with some of their updates and empty commands struck, on ours and on the
//! original. Each call that stays must answer the same, apart from the struck
//! commands' own events and from piece counts, and RAM and icons end the same.
use crate::{
    block::{state, Block, WORDS},
    call::{Answer, Call, Ours, Step, Theirs},
    ffi_scan,
    line::{allowed, bytes, group, left, never_fall, whole_group, Byte, Line, Marked},
    marked::{self, Given, Maker, Unit},
    paper_controller::awaits,
    random::Random,
    shrink,
    side::END,
    total,
};
use nt7508::words::controller;
use original::ask::caught;
use std::collections::BTreeMap;

/// What a call answers. Of a drive also the electrodes, commons first; an image.
#[derive(PartialEq, Eq)]
struct Reply {
    answer: Answer,
    electrodes: Vec<u64>,
    image: Vec<u8>,
}

/// The replies of a list, how many of its updates counted so many pieces, and RAM
/// and icons after it.
struct Run {
    replies: Vec<Reply>,
    pieces: [u64; 5],
    memory: (Vec<u8>, Vec<u8>),
}

/// The number that document 01's table gives to a call, whose state is never at
/// fault.
fn refusal(given: &Given, step: &Step) -> u64 {
    let Step { now, call } = *step;
    let memory = matches!(
        call,
        Call::Rising(_) | Call::Group { .. } | Call::Drive | Call::Render
    );
    let untimed = matches!(
        call,
        Call::Render | Call::Select(_) | Call::Data(_) | Call::Temperature(_) | Call::Voltages
    );
    match group(call) {
        _ if memory && !given.memory() => 2,
        _ if call == Call::Render && given.pixels != 6144 => 8,
        _ if !untimed && now >= END => 1,
        Some((bits, count)) if !whole_group(bits, count) => 7,
        _ => 0,
    }
}

/// The voltages of all electrodes.
fn electrodes(answer: &Answer) -> Vec<u64> {
    let mut drive = [0; 12];
    drive.copy_from_slice(&answer.words[..12]);
    let mut all = vec![0; 257];
    for number in 0..=128 {
        let [common, segment] = ffi_scan::electrodes(&drive, number);
        all[usize::from(number)] = common;
        if number < 128 {
            all[129 + usize::from(number)] = segment;
        }
    }
    all
}

/// A call of ours.
fn reply(ours: &mut Ours, step: &Step) -> Reply {
    let mut reply = Reply {
        answer: ours.ask(step),
        electrodes: Vec::new(),
        image: Vec::new(),
    };
    match step.call {
        Call::Drive if reply.answer.number == 0 => reply.electrodes = electrodes(&reply.answer),
        Call::Render => {
            reply.image = ours.image.clone();
            ours.image.fill(0x5a);
        }
        _ => (),
    }
    reply
}

/// The calls that `next` gives, made on ours and on the original, where nothing
/// is refused. An update is no call of the original. What differs between the two
/// is an error, and so is a number that is not the table's.
fn run(given: &Given, mut next: impl FnMut(&Block) -> Option<Step>) -> Result<Run, String> {
    let mut ours = Ours {
        block: vec![0; WORDS],
        ram: given.ram.clone(),
        icons: given.icons.clone(),
        image: vec![0x5a; given.pixels],
    };
    controller::new(&mut ours.block);
    let block = |ours: &Ours| -> Block { ours.block[..].try_into().expect("a block") };
    let mut theirs = (given.original && given.memory())
        .then(|| Theirs::new(state(&block(&ours), &given.ram, &given.icons)));
    let (mut replies, mut pieces) = (Vec::new(), [0; 5]);
    while let Some(step) = next(&block(&ours)) {
        let mut reply = reply(&mut ours, &step);
        let (number, wanted) = (reply.answer.number, refusal(given, &step));
        if number != wanted {
            return Err(format!("{step:?}: the table {wanted}, ours {number}"));
        }
        match (step.call, number, &mut theirs) {
            // No call of the original. The count is left out of the comparison.
            (Call::Update, 0, _) => {
                pieces[std::mem::take(&mut reply.answer.words[0]) as usize] += 1
            }
            (_, 0, Some(theirs)) => {
                let answer = theirs.ask(&step);
                let image = step.call != Call::Render || reply.image == theirs.image;
                if answer != reply.answer || !image {
                    let ours = reply.answer;
                    return Err(format!("{step:?}: original {answer:?}\n  ours {ours:?}"));
                }
            }
            _ => (),
        }
        replies.push(reply);
    }
    let memory = (ours.ram, ours.icons);
    if let Some(Theirs { state, .. }) = theirs {
        if memory.0 != state.ram() || memory.1 != state.icons() {
            return Err("RAM or icons of the original".to_string());
        }
    }
    Ok(Run {
        replies,
        pieces,
        memory,
    })
}

fn run_of(given: &Given, mut steps: impl Iterator<Item = Step>) -> Result<Run, String> {
    run(given, |_| steps.next())
}

/// Whether a call's event is that of the byte which it ends by the line.
fn told(ended: Option<Byte>, event: &[u64; 13]) -> bool {
    let [kind, _, _, sent, has, parameter, ..] = *event;
    let Some(byte) = ended else {
        return kind == 0;
    };
    let value = u64::from(byte.value);
    if byte.data {
        (kind, sent) == (1, value)
    } else if byte.parameter {
        (kind, has, parameter) == (2, 1, value)
    } else if awaits(value) {
        kind == 0
    } else {
        (kind, sent, has) == (2, value, 0)
    }
}

/// What the lists were, and what came of them.
#[derive(Default)]
struct Tally(BTreeMap<&'static str, u64>);

impl Tally {
    fn add(&mut self, name: &'static str, count: u64) {
        *self.0.entry(name).or_default() += count;
    }
    fn of(&self, name: &str) -> u64 {
        self.0.get(name).copied().unwrap_or(0)
    }
    fn call(&mut self, call: Call, answer: &Answer) {
        let name = match (call, answer.number, answer.words[0]) {
            (_, 1, _) => "calls refused as 1",
            (_, 2, _) => "calls refused as 2",
            (_, 7, _) => "calls refused as 7",
            (_, 8, _) => "calls refused as 8",
            (Call::Rising(_) | Call::Group { .. }, _, 0) => "groups without an event",
            (Call::Rising(_) | Call::Group { .. }, _, 1) => "data events",
            (Call::Rising(_) | Call::Group { .. }, _, _) => "command events",
            (Call::Drive, _, 129) => "drives of no common",
            (Call::Drive, _, _) => "drives of a common",
            (Call::Render, _, _) => "images",
            (Call::Voltages, _, _) => "voltages",
            _ => "calls with nothing but their number",
        };
        self.add(name, 1);
    }
    /// What is struck of a list.
    fn struck(&mut self, list: &[Marked], memory: bool) {
        for (byte, places) in bytes(list, memory) {
            if byte.struck {
                let mut calls: Vec<usize> = places.iter().map(|(index, _)| *index).collect();
                let span = calls[7] - calls[0];
                calls.dedup();
                self.add("struck E3", 1);
                self.add("struck E3 of several groups", u64::from(calls.len() > 1));
                self.add(
                    "struck E3 with other calls between",
                    u64::from(span >= calls.len()),
                );
            }
        }
        for marked in list.iter().filter(|marked| marked.struck != 0) {
            let name = match (marked.step.call, left(marked)) {
                (Call::Update, _) => "struck updates",
                (_, None) => "groups emptied",
                _ => "groups that lost some bits",
            };
            self.add(name, 1);
        }
    }
    fn print(&self) {
        let first = ["lists", "struck updates", "struck E3", "replies compared"];
        let words = |name: &&str| format!("{} {name}", self.of(name));
        let others = self.0.keys().filter(|name| !first.contains(name));
        let [first, others] = [
            first.iter().map(words).collect::<Vec<String>>(),
            others.map(words).collect(),
        ];
        println!("whole = struck: {}", first.join(", "));
        println!("among them {}", others.join(", "));
    }
}

/// What differs between the replies of the whole list and of the kept one.
fn compare(
    given: &Given,
    list: &[Marked],
    full: Run,
    kept: Run,
    tally: &mut Tally,
) -> Option<String> {
    tally.struck(list, given.memory());
    let counted = full.pieces[2..].iter().sum();
    tally.add("updates that counted one piece", full.pieces[1]);
    tally.add("updates that counted 2 to 4 pieces", counted);
    let mut line = Line::ON;
    let mut kept_replies = kept.replies.into_iter();
    for (marked, mut reply) in list.iter().zip(full.replies) {
        tally.call(marked.step.call, &reply.answer);
        let (ended, _) = line.follow(marked, given.memory());
        let bits = group(marked.step.call).is_some() && reply.answer.number == 0;
        if bits && !told(ended, &reply.answer.words) {
            let answer = reply.answer;
            return Some(format!("{marked:?}: {answer:?}, by the line {ended:?}"));
        }
        if ended.is_some_and(|byte| byte.struck) {
            // The struck command's own event.
            reply.answer.words = [0; 13];
        }
        if left(marked).is_none() {
            continue;
        }
        let other = kept_replies.next().expect("a reply of each call");
        if other != reply {
            let shown = (
                other.electrodes != reply.electrodes,
                other.image != reply.image,
            );
            return Some(format!(
                "{marked:?}: electrodes and image differ {shown:?}\n  whole list {:?}\n  kept list  {:?}",
                reply.answer, other.answer
            ));
        }
        tally.add("replies compared", 1);
    }
    (full.memory != kept.memory).then(|| "RAM or icons at the end".to_string())
}

/// What differs when something is struck of a list whose whole run is known.
fn struck(given: &Given, list: &[Marked], full: Run, tally: &mut Tally) -> Option<String> {
    match run_of(given, list.iter().filter_map(left)) {
        Ok(kept) => compare(given, list, full, kept, tally),
        Err(words) => Some(words),
    }
}

/// What differs in a list. A panic of either side is a difference.
fn difference(given: &Given, list: &[Marked]) -> Option<String> {
    let all = || match run_of(given, list.iter().map(|marked| marked.step)) {
        Ok(full) => struck(given, list, full, &mut Tally::default()),
        Err(words) => Some(words),
    };
    caught(all).unwrap_or_else(|words| Some(format!("panic: {words}")))
}

/// The premises of demand 3 that the calls alone decide.
fn premises(given: &Given, list: &[Marked]) -> bool {
    never_fall(list) && allowed(list, given.memory())
}

/// The list with these spans between its calls.
fn spanned(list: &[Marked], spans: &[u128]) -> Vec<Marked> {
    let (mut list, mut now) = (list.to_vec(), 0);
    for (marked, span) in list.iter_mut().zip(spans) {
        now += span;
        marked.step.now = now;
    }
    list
}

/// The difference again, with less struck, by fewer calls that come earlier.
fn report(given: &Given, list: Vec<Marked>) {
    let fails = |list: &[Marked]| premises(given, list) && difference(given, list).is_some();
    let mut units = marked::units(&list, given.memory());
    units.retain(|unit| list[unit[0].0].struck >> unit[0].1 & 1 != 0);
    let units = shrink::list(units, |units: &[Unit]| fails(&marked::struck(&list, units)));
    let list = shrink::list(marked::struck(&list, &units), fails);
    let mut last = 0;
    let span = |marked: &Marked| marked.step.now - std::mem::replace(&mut last, marked.step.now);
    let spans: Vec<u128> = list.iter().map(span).collect();
    let least = vec![0; list.len()];
    let small = shrink::numbers(spans, &least, |spans| fails(&spanned(&list, spans)));
    let list = spanned(&list, &small);
    let words = difference(given, &list).unwrap_or_default();
    println!("DIFFERENCE: {words}");
    list.iter().for_each(|marked| println!("  {marked:?}"));
    println!("  ram from {:?}", &given.ram[..16]);
}

/// How many calls a list has.
const LENGTH: u64 = 60;

/// A random list, some of it struck, and the run of the whole of it; what ours and
/// the original differ in.
fn made(random: &mut Random, given: &Given, list: &mut Vec<Marked>) -> Result<Run, String> {
    let mut maker = Maker::new(random, given.memory(), LENGTH);
    let full = run(given, |block| {
        let step = maker.step(block)?;
        list.push(Marked { step, struck: 0 });
        Some(step)
    })?;
    *list = marked::strike(random, list, given.memory());
    Ok(full)
}

/// One random list; true if nothing differs.
fn one(random: &mut Random, tally: &mut Tally) -> bool {
    let given = Given::any(random);
    let mut list = Vec::new();
    let all = caught(|| {
        let full = made(random, &given, &mut list)?;
        assert!(premises(&given, &list), "a list that the driver made");
        struck(&given, &list, full, tally).map_or(Ok(()), Err)
    });
    let words = match all {
        Ok(Ok(())) => return true,
        Ok(Err(words)) => words,
        Err(words) => format!("panic: {words}"),
    };
    println!("DIFFERENCE: {words}\n  made small:");
    report(&given, list);
    false
}

/// Compares `count` lists.
pub fn run_all(seed: u64, count: u64) -> bool {
    println!("seed {seed}");
    let mut random = Random::new(seed);
    let mut tally = Tally::default();
    let good = (0..count).all(|_| {
        tally.add("lists", 1);
        one(&mut random, &mut tally)
    });
    tally.print();
    let compared = tally.of("replies compared");
    total::add(compared);
    good && compared != 0
}

/// The driver itself: what may not be struck must be found when it is, and so must
/// moments that fall.
#[cfg(test)]
mod tests {
    use super::*;

    /// Whether a difference between the runs of ours is seen in some list that was
    /// spoilt. No spoilt list has the premises.
    fn found(spoil: impl Fn(&mut Vec<Marked>) -> bool) -> bool {
        let mut random = Random::new(1);
        (0..2000).any(|_| {
            let mut given = Given::any(&mut random);
            given.original = false;
            let mut list = Vec::new();
            made(&mut random, &given, &mut list).expect("a run");
            if !given.memory() || !spoil(&mut list) {
                return false;
            }
            assert!(!premises(&given, &list));
            difference(&given, &list).is_some()
        })
    }
    /// Strikes so many bits of a byte, and nothing else.
    fn byte(bits: usize, which: fn(&Byte) -> bool) -> impl Fn(&mut Vec<Marked>) -> bool {
        move |list| {
            let all = bytes(list, true);
            let Some((_, places)) = all.iter().find(|(byte, _)| which(byte)) else {
                return false;
            };
            *list = marked::struck(list, &[places[..bits].to_vec()]);
            true
        }
    }

    #[test]
    fn what_may_not_be_struck_is_found() {
        assert!(found(byte(8, |byte| byte.parameter)));
        assert!(found(byte(8, |byte| byte.parameter && byte.value == 0xe3)));
        assert!(found(byte(8, |byte| byte.data)));
        assert!(found(byte(8, |byte| byte.data && byte.value == 0xe3)));
        assert!(found(byte(8, |byte| !byte.data && byte.value == 0xaf)));
        (1..8).for_each(|bits| assert!(found(byte(bits, Byte::is_empty))));
    }

    /// A struck update that is later than all calls.
    #[test]
    fn moments_that_fall_are_found() {
        assert!(found(|list| {
            let last = list.last().expect("a call").step.now;
            let update = |marked: &&mut Marked| marked.step.call == Call::Update;
            let Some(marked) = list.iter_mut().find(update) else {
                return false;
            };
            marked.struck = 1;
            marked.step.now = last + 1;
            true
        }));
    }

    #[test]
    fn what_may_be_struck_is_not() {
        assert!(run_all(1, 1000));
    }
}
