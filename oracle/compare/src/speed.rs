//! How long a call takes, the original and ours on the same inputs. Inputs are
//! made beforehand, fields of clocks and settings of controllers too, and copies
//! of what a call changes, so that only the calls are timed. Answers are shown
//! to the compiler where they stand: a copy of them would be timed too.
use crate::{
    chip::Chip,
    chip_words::ChipWords,
    clock::{random_clock, random_edges, random_moment},
    ffi::{self, clock_words},
    ffi_scan,
    processor::Start,
    random::Random,
    side::{ClockState, END},
    speed_controller, valid,
    voltage::{cornered, random_settings, temperatures},
};
use nt7508::words::{clock as our_clock, scan, voltage, Lent};
use original::{
    ask::{
        clock,
        controller::{Controller, PIXELS},
        voltage::Bench,
    },
    time::Clock,
};
use std::{hint::black_box, sync::OnceLock, time::Duration};

/// The rounds of a row, in which both sides work one after the other.
pub struct Rounds {
    number: usize,
    /// How many nanoseconds the slower side works in one, about.
    length: f64,
    /// The figure of a row: which of its rounds, from the least to the most.
    told: usize,
}

/// The median of long rounds.
pub const MEDIAN: Rounds = Rounds {
    number: 11,
    length: 5e7,
    told: 5,
};

/// The least of many short rounds: what a call takes where nothing else has the
/// machine, so that two libraries can be compared on a busy one.
pub const LEAST: Rounds = Rounds {
    number: 41,
    length: 1e6,
    told: 0,
};

/// What `run` was asked for.
static ROUNDS: OnceLock<Rounds> = OnceLock::new();

fn rounds() -> &'static Rounds {
    ROUNDS.get_or_init(|| MEDIAN)
}

/// How many calls were made, and how long they took.
pub type Timed = (usize, Duration);

/// Nanoseconds a call, of a side that makes about so many.
fn a_call(side: &mut impl FnMut(usize) -> Timed, calls: usize) -> f64 {
    let (made, time) = side(calls);
    time.as_secs_f64() * 1e9 / made as f64
}

/// The figure of a row, and how far its rounds lie apart, in percent of it.
fn figure(mut times: Vec<f64>) -> (f64, f64) {
    times.sort_by(f64::total_cmp);
    let [least, told, most] = [0, rounds().told, times.len() - 1].map(|index| times[index]);
    (told, (most - least) / told * 100.0)
}

/// A row of the table: the figures of alternating rounds, their ratio, and how far
/// the rounds of either side lie apart.
pub fn line(
    name: &str,
    mut original: impl FnMut(usize) -> Timed,
    mut ours: impl FnMut(usize) -> Timed,
) {
    // The first calls are slow, and count in no round.
    let slower = a_call(&mut original, 1000).max(a_call(&mut ours, 1000));
    let calls = (rounds().length / slower) as usize + 1;
    let (mut first, mut second) = (Vec::new(), Vec::new());
    for _ in 0..rounds().number {
        first.push(a_call(&mut original, calls));
        second.push(a_call(&mut ours, calls));
    }
    let ((first, apart), (second, our_apart)) = (figure(first), figure(second));
    let (ratio, apart) = (second / first, apart.max(our_apart));
    println!("| {name} | {first:.1} | {second:.1} | {ratio:.2} | {apart:.0} % |");
}

/// A row of a call that the original does not have.
pub fn ours_alone(name: &str, mut ours: impl FnMut(usize) -> Timed) {
    let calls = (rounds().length / a_call(&mut ours, 1000)) as usize + 1;
    let times = (0..rounds().number).map(|_| a_call(&mut ours, calls));
    let (here, apart) = figure(times.collect());
    println!("| {name} | – | {here:.1} | – | {apart:.0} % |");
}

/// Calls over all questions again and again.
pub fn timed<'a, Q>(
    questions: &'a [Q],
    mut call: impl FnMut(&Q) + 'a,
) -> impl FnMut(usize) -> Timed + 'a {
    move |calls| {
        let rounds = calls.div_ceil(questions.len());
        let start = Start::now();
        for _ in 0..rounds {
            questions
                .iter()
                .for_each(|question| call(black_box(question)));
        }
        (rounds * questions.len(), start.elapsed())
    }
}

/// Calls that change what they are given: on copies, made before the time is
/// taken.
pub fn timed_on_copies<'a, Q, C>(
    questions: &'a [Q],
    copy: impl Fn(&Q) -> C + 'a,
    mut call: impl FnMut(&Q, &mut C) + 'a,
) -> impl FnMut(usize) -> Timed + 'a {
    move |calls| {
        let rounds = calls.div_ceil(questions.len());
        let mut time = Duration::ZERO;
        for _ in 0..rounds {
            let mut copies: Vec<C> = questions.iter().map(&copy).collect();
            let all = black_box(&mut copies[..]);
            let start = Start::now();
            for (question, copy) in questions.iter().zip(all) {
                call(black_box(question), copy);
            }
            time += start.elapsed();
            black_box(&copies);
        }
        (rounds * questions.len(), time)
    }
}

/// The clock's functions. Ours checks the rate and the clock at each call.
fn clocks(random: &mut Random) {
    let micros: Vec<u64> = (0..4096).map(|_| random.next()).collect();
    let mut out = [0; 2];
    line(
        "microseconds as a time",
        timed(&micros, |us| {
            black_box(&clock::micros(*us));
        }),
        timed(&micros, |us| {
            our_clock::micros(*us, &mut out);
            black_box(&out);
        }),
    );
    let states: Vec<ClockState> = (0..4096).map(|_| random_clock(random)).collect();
    let mut out = [0; 8];
    line(
        "new clock",
        timed(&states, |at| {
            black_box(&clock::new(at.at, at.p, at.q));
        }),
        timed(&states, |at| {
            black_box(our_clock::new(at.at, at.p, at.q, &mut out));
            black_box(&out);
        }),
    );
    let edges: Vec<Clocked> = states
        .iter()
        .map(|state| {
            let parts = state.parts();
            let now = random_moment(random, state);
            let edges = random_edges(random, state);
            (state, clock::clock(&parts), clock_words(&parts), now, edges)
        })
        .collect();
    let mut count = 0;
    line(
        "edges up to a moment",
        timed(&edges, |(_, clock, _, now, _)| {
            black_box(clock::edges_to(clock, *now));
        }),
        timed(&edges, |(at, _, clock, now, _)| {
            black_box(our_clock::edges_to(clock, at.p, at.q, *now, &mut count));
            black_box(&count);
        }),
    );
    ours_alone(
        "clock checked",
        timed(&edges, |(at, _, clock, _, _)| {
            black_box(our_clock::check(clock, at.p, at.q));
        }),
    );
    line(
        "clock moved",
        timed_on_copies(
            &edges,
            |(_, clock, ..)| *clock,
            |(_, _, _, _, edges), clock| {
                black_box(&clock::advance(clock, *edges));
            },
        ),
        timed_on_copies(
            &edges,
            |(_, _, clock, ..)| *clock,
            |(at, _, _, _, edges), clock| {
                black_box(our_clock::moved(clock, at.p, at.q, *edges));
            },
        ),
    );
    passed(&edges);
}

/// A clock as both sides hold it, a moment, and so many edges.
type Clocked<'a> = (&'a ClockState, Clock, [u64; 8], u128, u64);

/// The original counts and then moves; ours does both in one call.
fn passed(edges: &[Clocked]) {
    line(
        "clock moved to a moment",
        timed_on_copies(
            edges,
            |(_, clock, ..)| *clock,
            |(_, _, _, now, _), clock| {
                let count = clock::edges_to(clock, *now);
                black_box(&clock::advance(clock, count));
            },
        ),
        timed_on_copies(
            edges,
            |(_, _, clock, ..)| *clock,
            |(at, _, _, now, _), clock| {
                let rate = (at.p, at.q);
                black_box(our_clock::passed_to(clock, rate, *now, u64::MAX, &mut 0));
            },
        ),
    );
}

/// The original's settings stand in 64 controllers, which fit a near cache.
fn voltages(random: &mut Random) {
    let questions: Vec<_> = (0..64)
        .map(|_| {
            let settings = random_settings(random);
            let question = cornered(random, settings, &temperatures(settings));
            let mut bench = Bench::new();
            bench.voltages(&question);
            (question, bench)
        })
        .collect();
    let mut out = [0; 7];
    line(
        "voltages",
        timed(&questions, |(_, bench)| {
            black_box(&bench.controller().voltages());
        }),
        timed(&questions, |(question, _)| {
            black_box(ffi::voltages(question, &mut out));
            black_box(&out);
        }),
    );
    ours_alone(
        "voltage settings checked",
        timed(&questions, |(question, _)| {
            black_box(voltage::valid(&question.settings));
        }),
    );
    let mut found = [0; 3];
    ours_alone(
        "setting finder, no pair in the band",
        timed(&questions, |(question, _)| {
            let settings = &question.settings;
            let number = voltage::find_setting((1, 2), settings, question.temperature, &mut found);
            black_box((number, &found));
        }),
    );
}

/// A state of the scan layer as both sides hold it, and a moment.
pub struct Scanned {
    pub state: Controller,
    chip: ChipWords,
    ram: Vec<u8>,
    icons: Vec<u8>,
    pub now: u128,
}

impl Scanned {
    fn lent(&self) -> Lent<'_> {
        Lent {
            ram: &self.ram,
            icons: &self.icons,
        }
    }
}

/// 64 driven states, a second after their last edge, so that drives, images and
/// counts have all their work to do.
pub fn scanned(random: &mut Random) -> Vec<Scanned> {
    scanned_after(random, 1 << 64)
}

/// 64 driven states, so long after their last edge.
fn scanned_after(random: &mut Random, span: u128) -> Vec<Scanned> {
    let mut all = Vec::new();
    while all.len() < 64 {
        let chip = valid::chip(random);
        let (ram, icons) = valid::memory(random);
        let now = chip.scan.clock.map_or(0, |clock| clock.at + span);
        let oscillates = chip.display.oscillator_control & 1 == 0;
        if chip.power.driven() && oscillates && 0 < now && now < END {
            all.push(Scanned {
                state: chip.state(&ram, &icons),
                chip: ChipWords::of(&chip),
                ram,
                icons,
                now,
            });
        }
    }
    all
}

/// A century in seconds.
const CENTURY: u64 = 36_525 * 86_400;

/// The same states at moments further and further on: a drive costs the same.
fn level(random: &mut Random) {
    let century = u128::from(CENTURY) << 64;
    let all = scanned_after(random, century);
    for (name, span) in [
        (
            "drive of the scan, 1 ms after the last edge",
            (1 << 64) / 1000,
        ),
        ("drive of the scan, a day after the last edge", 86_400 << 64),
        ("drive of the scan, 100 years after the last edge", century),
    ] {
        drives(&all, name, century - span);
    }
}

/// A drive of each state, so long before its moment.
fn drives(all: &[Scanned], name: &str, back: u128) {
    let (mut out, mut frame) = ([0; 12], 0);
    line(
        name,
        timed(all, |at| {
            black_box(&at.state.drive(at.now - back));
        }),
        timed(all, |at| {
            let now = at.now - back;
            let lent = at.lent();
            black_box(ffi_scan::drive(&at.chip, now, lent, &mut out, &mut frame));
            black_box((&out, &frame));
        }),
    );
}

/// Ours checks memory, time, settings, scan and clock at each call. The
/// original counts by itself only within other calls, of which a fall of the
/// supply does the least besides.
fn scans(random: &mut Random) {
    let all = scanned(random);
    for (name, back) in [
        ("drive of the scan, a second after the last edge", 0),
        ("drive of the scan, at the last edge", 1 << 64),
    ] {
        drives(&all, name, back);
    }
    let fallen = || {
        timed_on_copies(
            &all,
            |at| at.state.clone(),
            |at, copy| copy.set_supply(1, at.now).expect("a fall"),
        )
    };
    line(
        "scan counted over a second",
        fallen(),
        timed_on_copies(
            &all,
            |at| at.chip,
            |at, copy| {
                black_box(ffi_scan::count_to(copy, at.now, &mut 0));
            },
        ),
    );
    line(
        "fall of the scan, a second after the last edge",
        fallen(),
        timed_on_copies(
            &all,
            |at| at.chip,
            |at, copy| {
                black_box(ffi_scan::fall(copy, at.now));
            },
        ),
    );
    let (mut pixels, mut ours) = ([0; PIXELS], [0; PIXELS]);
    line(
        "image of the scan",
        timed(&all, |at| {
            at.state.render(&mut pixels);
            black_box(&pixels);
        }),
        timed(&all, |at| {
            black_box(ffi_scan::render(&at.chip, at.lent(), &mut ours));
            black_box(&ours);
        }),
    );
    electrodes(&all);
}

/// All 257 electrodes of a drive.
fn electrodes(all: &[Scanned]) {
    let drives: Vec<_> = all
        .iter()
        .map(|at| {
            let mut words = [0; 12];
            ffi_scan::drive(&at.chip, at.now, at.lent(), &mut words, &mut 0);
            (at.state.drive(at.now).expect("a drive"), words)
        })
        .collect();
    line(
        "257 electrodes of a drive",
        timed(&drives, |(drive, _)| {
            for common in 0..=128 {
                black_box(drive.common_microvolts(common));
            }
            for segment in 0..128 {
                black_box(drive.segment_microvolts(segment));
            }
        }),
        timed(&drives, |(_, words)| {
            for common in 0..=128 {
                black_box(scan::common_microvolts(words, common));
            }
            for segment in 0..128 {
                black_box(scan::segment_microvolts(words, segment));
            }
        }),
    );
}

/// Calls at moments that go on from call to call, from round to round.
pub fn timed_on(mut call: impl FnMut(u64)) -> impl FnMut(usize) -> Timed {
    let mut number = 0;
    move |calls| {
        let start = Start::now();
        for _ in 0..calls {
            number += 1;
            call(number);
        }
        (calls, start.elapsed())
    }
}

/// A controller that runs, selected.
pub fn running() -> Controller {
    let mut running = Controller::new();
    running.select(true);
    for byte in [0xab, 0xaf, 0x2f] {
        running.byte(byte, 0).expect("a command");
    }
    running.events.clear();
    running
}

/// Bytes to a controller that runs: commands that change nothing, and data for
/// page 0. Of ours only what the scan does before a byte and after it.
fn scan_bytes() {
    let running = running();
    for (name, page, apart) in [
        ("scan of a command byte, 61 µs after the last *", None, 50),
        ("scan of a command byte, 4 µs after the last *", None, 46),
        ("scan of a data byte, 61 µs after the last *", Some(0), 50),
        ("scan of a data byte, 4 µs after the last *", Some(0), 46),
    ] {
        let mut original = running.clone();
        original.command_data(page.is_some());
        let mut chip = ChipWords::of(&Chip::of(&running));
        let lent = Lent {
            ram: running.ram(),
            icons: running.icons(),
        };
        line(
            name,
            timed_on(|number| {
                let now = u128::from(number) << apart;
                original.shift_in(0xe3, 8, now).expect("a byte");
                original.events.clear();
            }),
            timed_on(|number| {
                let now = u128::from(number) << apart;
                black_box(ffi_scan::before_byte(&mut chip, now, page, lent));
                black_box(ffi_scan::after_byte(&mut chip, now, true, lent));
            }),
        );
    }
}

pub fn run(seed: u64, asked: Rounds) -> bool {
    let figure = if asked.told == 0 { "least" } else { "median" };
    println!(
        "seed {seed}; nanoseconds of processor time a call, the {figure} of {} alternating rounds; the last column:",
        asked.number
    );
    ROUNDS.get_or_init(|| asked);
    println!("how far the rounds lie apart, from the least to the most");
    println!();
    println!("| call | the Rust | here | ratio | apart |");
    println!("|---|---|---|---|---|");
    let mut random = Random::new(seed);
    clocks(&mut random);
    voltages(&mut random);
    scans(&mut random);
    level(&mut random);
    scan_bytes();
    speed_controller::rows(&mut random);
    println!();
    println!("* the Rust: the whole byte; here: its scan, `before_byte` and `after_byte`");
    true
}
