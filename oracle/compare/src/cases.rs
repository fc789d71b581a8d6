//! Fixed lists of the original's answers, which the Rattle programs `layer_cases`
//! and `cases` replay with no Rust at hand. A line is one case: its kind, what is
//! asked, and the original's answers, unsigned decimals with one space between;
//! the src/ of these two crates says for each kind what the numbers are. The same
//! command gives the same bytes again.
use crate::{
    clock::{edge_micros, random_clock, random_edges, random_moment, sweep},
    paper::edge,
    question::{unsigned, Advance, EdgesTo, Micros, NewClock, Question},
    random::Random,
    side::{ClockState, Original, END},
    voltage::{cornered, plain, random_settings, temperatures},
};
use original::{
    ask::{caught, voltage::Question as Voltage},
    devices::nt7508::LcdVoltages,
};

/// An absent voltage: one more than the largest present one.
const ABSENT: u64 = 1 << 32;

pub struct List {
    original: Original,
    body: String,
}

impl List {
    pub fn new() -> Self {
        Self {
            original: Original::new(),
            body: String::new(),
        }
    }
    /// The original's answer to a question, or none if it panics.
    fn ask<Q: Question<Original>>(&mut self, question: &Q) -> Option<Q::Answer> {
        let original = &mut self.original;
        let answer = caught(|| question.ask(original));
        if let Err(words) = &answer {
            eprintln!("the original panics: {words}: {question:?}");
        }
        answer.ok()
    }
    pub fn line(&mut self, numbers: &[u64]) {
        let words: Vec<String> = numbers.iter().map(u64::to_string).collect();
        self.body.push_str(&words.join(" "));
        self.body.push('\n');
    }
    pub fn print(self) -> bool {
        print!("{}", self.body);
        true
    }
}

/// A wide number as two words, high first.
fn words(wide: u128) -> [u64; 2] {
    [(wide >> 64) as u64, wide as u64]
}

fn micros(list: &mut List, question: Micros) {
    let Some(time) = list.ask(&question) else {
        return;
    };
    let [high, low] = words(time);
    list.line(&[1, question.0, high, low]);
}

fn new(list: &mut List, question: NewClock) {
    let Some(parts) = list.ask(&question) else {
        return;
    };
    let ([at_high, at_low], [whole_high, whole_low]) = (words(question.at), words(parts.whole));
    let (p, q) = question.rate;
    list.line(&[
        2,
        at_high,
        at_low,
        p,
        q,
        whole_high,
        whole_low,
        parts.remainder,
        parts.denominator,
        parts.fraction,
        parts.ordinal,
    ]);
}

/// The numbers of a clock that is asked: last edge, rate, fraction, ordinal.
fn clock_words(clock: &ClockState) -> [u64; 6] {
    let [high, low] = words(clock.at);
    [high, low, clock.p, clock.q, clock.fraction, clock.ordinal]
}

fn edges_to(list: &mut List, question: EdgesTo) {
    let Some(edges) = list.ask(&question) else {
        return;
    };
    let mut numbers = vec![3];
    numbers.extend(clock_words(&question.clock));
    numbers.extend(words(question.now));
    numbers.push(edges);
    list.line(&numbers);
}

fn advance(list: &mut List, question: Advance) {
    let Some(moved) = list.ask(&question) else {
        return;
    };
    let [high, low] = words(moved.at);
    let mut numbers = vec![4];
    numbers.extend(clock_words(&question.clock));
    numbers.push(question.edges);
    numbers.extend([high, low, moved.fraction, moved.ordinal]);
    list.line(&numbers);
}

/// How many of the sweep's clocks to pass over so that about `count` lines are
/// left, four from each clock. It has no divisor in common with the lengths of
/// the sweep's lists, so that every part of each list comes up.
fn thinning(count: u64) -> u64 {
    let mut all = 0;
    sweep(|_, _| all += 1);
    let prime_to_all = |step: &u64| (2..=*step).all(|n| !(step.is_multiple_of(n) && all % n == 0));
    (all * 4 / count.max(1)..)
        .find(|step| *step > 0 && prime_to_all(step))
        .unwrap_or(1)
}

/// Clock cases: microseconds at their boundaries, every rate new, about `count`
/// from the sweep of the boundaries, and `count` random ones.
pub fn clock(seed: u64, count: u64) -> bool {
    let mut list = List::new();
    edge_micros()
        .into_iter()
        .for_each(|question| micros(&mut list, question));
    let p8 = ClockState {
        at: 0,
        p: 129_024,
        q: 1,
        fraction: 0,
        ordinal: 0,
    };
    for now in [(1 << 64) - 1, 1 << 64] {
        edges_to(&mut list, EdgesTo { clock: p8, now });
    }
    let step = thinning(count);
    let mut number = 0u64;
    sweep(|clock, edges| {
        number += 1;
        if edges == 0 && clock.at == 0 && clock.fraction == 0 {
            new(
                &mut list,
                NewClock {
                    at: 1 << 64,
                    rate: (clock.p, clock.q),
                },
            );
        }
        if number.is_multiple_of(step) {
            boundary(&mut list, clock, edges);
        }
    });
    let mut random = Random::new(seed);
    for _ in 0..count / 3 {
        any(&mut list, &mut random);
    }
    list.print()
}

/// A clock moved to an edge, and asked just before the edge, at it and after.
fn boundary(list: &mut List, clock: ClockState, edges: u64) {
    let at = edge(&clock, edges).0;
    if at < END {
        advance(list, Advance { clock, edges });
    }
    for now in [at.saturating_sub(1), at, at + 1] {
        if now < END {
            edges_to(list, EdgesTo { clock, now });
        }
    }
}

/// A random question of each kind but new.
fn any(list: &mut List, random: &mut Random) {
    micros(list, Micros(random.spread(1 << 64) as u64));
    let clock = random_clock(random);
    edges_to(
        list,
        EdgesTo {
            clock,
            now: random_moment(random, &clock),
        },
    );
    let clock = random_clock(random);
    advance(
        list,
        Advance {
            clock,
            edges: random_edges(random, &clock),
        },
    );
}

/// Target, pump and the five levels.
fn volts(voltages: &LcdVoltages) -> [u64; 7] {
    let number = |volts: Option<u32>| volts.map_or(ABSENT, u64::from);
    let [v0, v1, v2, v3, v4] = voltages.levels.map(number);
    [
        u64::from(voltages.target),
        number(voltages.pump),
        v0,
        v1,
        v2,
        v3,
        v4,
    ]
}

fn voltage_line(list: &mut List, question: Voltage) {
    let Some(voltages) = list.ask(&question) else {
        return;
    };
    let mut numbers = vec![5];
    numbers.extend(question.settings.map(u64::from));
    numbers.push(u64::from(question.supply));
    numbers.push(u64::from(unsigned(question.temperature)));
    numbers.push(u64::from(question.power_save));
    numbers.push(u64::from(question.waiting));
    numbers.extend(volts(&voltages));
    list.line(&numbers);
}

/// The voltage questions of P1 to P5 of document 01.
pub fn edge_figures() -> Vec<Voltage> {
    let all = |contrast, regulator, bias| plain([contrast, regulator, 7, 0, bias, 0, 0, 0]);
    let mut questions = vec![
        all(32, 0, 7),
        all(32, 0, 7),
        all(61, 7, 7),
        all(62, 7, 7),
        all(53, 1, 7),
        all(53, 1, 7),
    ];
    questions[1].temperature = 20_000;
    // P3 needs a pump above 18 V, which booster 11 gives.
    questions[2].settings[3] = 11;
    questions[3].settings[3] = 11;
    questions[5].supply = 3001;
    questions
}

/// Voltage cases: P1 to P5, every temperature corner of some settings, then
/// `count` random ones at the corners.
pub fn voltage(seed: u64, count: u64) -> bool {
    let mut list = List::new();
    let mut random = Random::new(seed);
    edge_figures()
        .into_iter()
        .for_each(|question| voltage_line(&mut list, question));
    for settings in [
        [32, 0, 7, 0, 7, 0, 0, 0],
        [63, 7, 7, 11, 0, 1, 7, 1],
        [0, 3, 7, 3, 3, 0, 8, 3],
    ] {
        for temperature in temperatures(settings) {
            voltage_line(
                &mut list,
                Voltage {
                    temperature,
                    ..plain(settings)
                },
            );
        }
    }
    for _ in 0..count {
        let settings = random_settings(&mut random);
        let question = cornered(&mut random, settings, &temperatures(settings));
        voltage_line(&mut list, question);
    }
    list.print()
}
