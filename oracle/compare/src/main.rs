//! The driver of the oracle: see `usage`, or `oracle/run`, which calls it.
mod any;
mod block;
mod call;
mod cases;
mod cases_controller;
mod cases_scan;
mod cases_session;
mod chip;
mod chip_words;
mod clock;
mod compare;
mod compare_controller;
mod compare_scan;
mod compare_session;
mod damaged;
mod damaged_controller;
mod damaged_scan;
mod differences;
mod differences_controller;
mod ffi;
mod ffi_scan;
mod findings;
mod fuzz;
mod line;
mod lists;
mod marked;
mod original_scan;
mod ours;
mod paper;
mod paper_checks;
mod paper_controller;
mod paper_scan;
mod processor;
mod question;
mod random;
mod rates;
mod selfcheck;
mod session;
mod shrink;
mod side;
mod speed;
mod speed_controller;
mod state;
mod strike;
mod texts;
mod total;
mod valid;
mod voltage;

use compare::Compare;
use random::Random;
use side::{Original, Side};
use std::process::ExitCode;

const USAGE: &str = "\
Ours, with the original and with document 01's table of refusals:
compare clock ours [COUNT]              the clock; COUNT random rounds (1000000)
compare voltage ours [ROUNDS]           the voltages; 33554432 settings a round (3)
compare scan ours [COUNT]               scan, drive and image from COUNT states (200000), and from a
                                        tenth as many that calls reach
compare controller ours [COUNT]         the controller: COUNT lists of 50 calls (240000), every byte with
                                        every awaited command, every group of bits
compare strike [COUNT]                  demand 3: COUNT lists (200000), whole and with updates and empty
                                        commands struck
compare session [COUNT]                 the session program: COUNT random and damaged texts (100000)
compare differences                     where ours is meant to answer otherwise than the original
The original alone:
compare selfcheck                       show that the oracle answers as document 01 says
compare findings                        the surprises of the original, each by its smallest input
compare fuzz [COUNT]                    damaged states that its validate accepts, run for panics
compare clock|voltage|scan paper [COUNT]
                                        with document 01's rules, plainly written (scan 20000)
Besides:
compare cases clock|voltage|scan|controller|session [COUNT]
                                        write a fixed list of the original's answers: some hundred,
                                        and COUNT random ones (clock 2000, and as many boundaries;
                                        voltage 4000; scan 900; controller 96 lists of 50 calls;
                                        session 16, and twice as many damaged)
compare speed [least]                   how long a call takes, the original and ours: the median of long
                                        rounds, or the least of many short ones
--seed N anywhere sets the seed of every random choice (default 7508).
Exit: 0 no difference; 1 a difference, a panic, or nothing compared; 2 bad usage; 3 not joined yet.";

const SEED: u64 = 7508;

/// Random rounds of the clock, and rounds over all voltage settings.
const CLOCKS: u64 = 1_000_000;
const ROUNDS: u64 = 3;

/// Valid states of the scan layer.
const STATES: u64 = 200_000;

/// Lists of calls of the controller.
const LISTS: u64 = 240_000;

/// Lists with something struck.
const STRUCK: u64 = 200_000;

/// Texts of sessions.
const TEXTS: u64 = 100_000;

/// The words of the command without `--seed N`, and the seed.
fn words() -> Option<(Vec<String>, u64)> {
    let (mut words, mut seed) = (Vec::new(), SEED);
    let mut all = std::env::args().skip(1);
    while let Some(word) = all.next() {
        if word == "--seed" {
            seed = all.next()?.parse().ok()?;
        } else {
            words.push(word);
        }
    }
    Some((words, seed))
}

/// A panic that no comparison caught is one of the driver's own, and said.
fn main() -> ExitCode {
    original::ask::quiet_panics();
    let code = original::ask::caught(command).unwrap_or_else(|words| {
        println!("THE DRIVER ITSELF PANICS: {words}");
        ExitCode::FAILURE
    });
    total::print();
    code
}

/// Does what the words of the command say.
fn command() -> ExitCode {
    let Some((words, seed)) = words() else {
        return usage();
    };
    let mut words = words.iter().map(String::as_str);
    let (first, second) = (words.next().unwrap_or(""), words.next());
    let number = |word: Option<&str>| word.map(str::parse::<u64>).transpose();
    match (first, second, number(words.next())) {
        ("selfcheck", None, _) => code(selfcheck::run(seed)),
        ("findings", None, _) => code(findings::run()),
        ("differences", None, _) => code(differences::run()),
        ("speed", None, _) => code(speed::run(seed, speed::MEDIAN)),
        ("speed", Some("least"), _) => code(speed::run(seed, speed::LEAST)),
        ("fuzz", count, _) => match number(count) {
            Ok(count) => code(fuzz::run(seed, count.unwrap_or(200_000))),
            Err(_) => usage(),
        },
        ("strike", count, _) => match number(count) {
            Ok(count) => code(strike::run_all(seed, count.unwrap_or(STRUCK))),
            Err(_) => usage(),
        },
        ("session", count, _) => match number(count) {
            Ok(count) => {
                println!("seed {seed}");
                let mut random = Random::new(seed);
                code(compare_session::run_all(
                    &mut random,
                    count.unwrap_or(TEXTS),
                ))
            }
            Err(_) => usage(),
        },
        ("cases", Some("clock"), Ok(count)) => code(cases::clock(seed, count.unwrap_or(2000))),
        ("cases", Some("voltage"), Ok(count)) => code(cases::voltage(seed, count.unwrap_or(4000))),
        ("cases", Some("scan"), Ok(count)) => code(cases_scan::scan(seed, count.unwrap_or(900))),
        ("cases", Some("controller"), Ok(count)) => {
            code(cases_controller::controller(seed, count.unwrap_or(96)))
        }
        ("cases", Some("session"), Ok(count)) => {
            code(cases_session::session(seed, count.unwrap_or(16)))
        }
        (layer @ ("clock" | "voltage" | "scan" | "controller"), Some(side), Ok(count)) => {
            against(layer, side, count, seed)
        }
        _ => usage(),
    }
}

fn usage() -> ExitCode {
    eprintln!("{USAGE}");
    ExitCode::from(2)
}

fn code(good: bool) -> ExitCode {
    ExitCode::from(u8::from(!good))
}

/// Compares a layer with a side.
fn against(layer: &str, side: &str, count: Option<u64>, seed: u64) -> ExitCode {
    println!("seed {seed}");
    let mut random = Random::new(seed);
    match (layer, side) {
        ("clock", "paper") => clock_with(paper::Paper, random, count),
        ("voltage", "paper") => voltage_with(paper::Paper, random, count),
        ("scan", "paper") => code(original_scan::run(&mut random, count.unwrap_or(20_000))),
        ("clock", "ours") => {
            let mut any = Compare::new(paper::Paper, ours::Ours);
            damaged::clocks(&mut any, &mut random, count.unwrap_or(CLOCKS));
            both(any.finish(), clock_with(ours::Ours, random, count))
        }
        ("voltage", "ours") => {
            let mut any = Compare::new(paper::Paper, ours::Ours);
            damaged::voltages(&mut any, &mut random, count.unwrap_or(ROUNDS) << 21);
            both(any.finish(), voltage_with(ours::Ours, random, count))
        }
        ("scan", "ours") => {
            let count = count.unwrap_or(STATES);
            let refusals = damaged_scan::run(&mut random, count);
            both(refusals, code(compare_scan::run(&mut random, count)))
        }
        ("controller", "ours") => {
            let count = count.unwrap_or(LISTS);
            let refusals = damaged_controller::run(&mut random, count);
            both(
                refusals,
                code(compare_controller::run_all(&mut random, count)),
            )
        }
        (_, "paper" | "ours") => {
            println!("original = {side}: {layer}: not joined yet, 0 inputs compared");
            ExitCode::from(3)
        }
        _ => usage(),
    }
}

fn both(good: bool, other: ExitCode) -> ExitCode {
    if good {
        other
    } else {
        ExitCode::FAILURE
    }
}

fn clock_with(side: impl Side, mut random: Random, count: Option<u64>) -> ExitCode {
    let mut compare = Compare::new(Original::new(), side);
    clock::run(&mut compare, &mut random, count.unwrap_or(CLOCKS));
    code(compare.finish())
}

fn voltage_with(side: impl Side, mut random: Random, rounds: Option<u64>) -> ExitCode {
    let mut compare = Compare::new(Original::new(), side);
    voltage::run(&mut compare, &mut random, rounds.unwrap_or(ROUNDS));
    code(compare.finish())
}
