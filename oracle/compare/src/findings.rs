//! What surprised in the original, each by the smallest input found and run
//! again here, so that the list cannot go stale. All but the one on a dark
//! controller's serial edges fail document 01's checks; they are the reasons
//! for the checks that it adds. Panics that come only by overflow checks, with
//! which the original is built here, say so.
use crate::{random::Random, side::ClockState, state::clock_image};
use original::{
    ask::{
        caught,
        clock::{self, Parts},
        controller::{Controller, PIXELS},
        voltage::Bench,
    },
    signals::Event,
};

/// A finding: the input in words, what came of it, and what was found before.
struct Finding {
    input: &'static str,
    came: String,
    found: &'static str,
}

pub fn run() -> bool {
    let all = [serial(), states(), settings(), clocks(), ends()]
        .into_iter()
        .flatten();
    let mut good = true;
    for Finding { input, came, found } in all {
        let same = came == found;
        println!(
            "{} {input}: {came}",
            if same { "as found" } else { "CHANGED " }
        );
        good &= same;
    }
    good & far_horizons()
}

/// The words of a panic, or what came instead.
pub fn outcome<T: std::fmt::Debug>(question: impl FnOnce() -> T) -> String {
    match caught(question) {
        Ok(answer) => format!("{answer:?}"),
        Err(words) => format!("panic: {words}"),
    }
}

fn selected() -> Controller {
    let mut controller = Controller::new();
    controller.select(true);
    controller
}

/// A selected controller with one part changed.
fn with(name: &str, image: &[u8]) -> Controller {
    let mut controller = selected();
    controller.put(name, image).expect("a field");
    controller
}

/// The last command that gave an event.
fn last_command(controller: &Controller) -> Option<u8> {
    match controller.events.last() {
        Some(Event::LcdControl { command, .. }) => Some(*command),
        _ => None,
    }
}

fn serial() -> Vec<Finding> {
    let stray = || {
        let mut controller = selected();
        for (bits, count) in [(0, 1), (2, 1), (0, 6)] {
            controller.shift_in(bits, count, 0).expect("a group");
        }
        last_command(&controller)
    };
    let held = || {
        let mut controller = selected();
        controller.shift_in(2, 1, 0).expect("a group");
        (controller.number("shift"), controller.number("bits"))
    };
    let dark = || {
        let mut controller = Controller::new();
        controller.set_supply(0, 0).expect("a fall");
        controller.select(true);
        let edges = controller.serial_effect_edges(false);
        controller.rising(true, 0).expect("an edge");
        (edges, controller.number("bits"))
    };
    vec![
        Finding {
            input: "shift_in: 7 bits under way, then 9 bits 0 (without overflow checks Ok)",
            came: outcome(|| with("bits", &[7]).shift_in(0, 9, 0)),
            found: "panic: attempt to shift right with overflow",
        },
        Finding {
            input: "shift_in: stray bit in a group of one, (bits 2, count 1), gives shift and bits",
            came: outcome(held),
            found: "(Some(2), Some(1))",
        },
        Finding {
            input: "shift_in: groups (0, 1) (2, 1) (0, 6), eight bits 0 and a stray one, act as the byte",
            came: outcome(stray),
            found: "Some(128)",
        },
        Finding {
            input: "serial_effect_edges: bits 8 (turned down by validate), clock low (without overflow checks 255)",
            came: outcome(|| with("bits", &[8]).serial_effect_edges(false)),
            found: "panic: attempt to subtract with overflow",
        },
        Finding {
            input: "serial_effect_edges: supply 0, then select: 15 edges to a byte, clock low, though no bit is taken; (edges, bits after one edge)",
            came: outcome(dark),
            found: "(15, Some(0))",
        },
    ]
}

/// States that `validate` accepts and document 01 turns down.
fn states() -> Vec<Finding> {
    let pending = || {
        let mut controller = with("pending", &[1, 0]);
        let accepted = controller.validate(0).is_ok();
        let answer = controller.byte(0, 0);
        (
            accepted,
            answer,
            controller.number("pending"),
            controller.number("bits"),
        )
    };
    let ordinal = || {
        let clock = ClockState {
            at: 0,
            p: 129_024,
            q: 1,
            fraction: 0,
            ordinal: u64::MAX - 65_536,
        };
        let mut controller = with("scan.clock", &clock_image(&clock));
        let accepted = controller.validate(0).is_ok();
        let answer = controller.byte(0xe3, 1 << 64);
        (
            accepted,
            answer,
            controller.number("bits"),
            controller.events.len(),
        )
    };
    let rate = || with("scan.rate.0", &1u64.to_le_bytes()).validate(0);
    let other = || {
        let clock = ClockState {
            at: 0,
            p: 16_128,
            q: 1,
            fraction: 0,
            ordinal: 0,
        };
        with("scan.clock", &clock_image(&clock)).validate(0)
    };
    vec![
        Finding {
            input: "pending byte 0: accepted by validate; the next byte is an error that also drops it; (accepted, answer, pending, bits)",
            came: outcome(pending),
            found: "(true, Err(Internal(\"unrecognized pending LCD parameter\")), Some(0), Some(0))",
        },
        Finding {
            input: "clock ordinal 2^64 - 65537 at 0: accepted by validate; a byte at 1 s is an error and lost; (accepted, answer, bits, events)",
            came: outcome(ordinal),
            found: "(true, Err(Time(Overflow)), Some(0), 0)",
        },
        Finding { input: "scan rate 1/1, no LCD rate: validate", came: outcome(rate), found: "Ok(())" },
        Finding { input: "clock of 16128 Hz in a scan of 129024 Hz: validate", came: outcome(other), found: "Ok(())" },
    ]
}

/// Settings that `validate` turns down, used without it.
fn settings() -> Vec<Finding> {
    let lit = |initial: u8| {
        let mut controller = with("initial_com", &[initial]);
        controller.byte(0xab, 0).expect("a command");
        controller.byte(0xaf, 0).expect("a command");
        outcome(|| controller.render(&mut [0; PIXELS]))
    };
    let write = || {
        let mut controller = with("column_byte", &[255, 255]);
        controller.command_data(true);
        controller.byte(0, 0)
    };
    let regulator = || {
        let mut question = crate::voltage::plain([0; 8]);
        question.settings[1] = 8;
        Bench::new().voltages(&question)
    };
    vec![
        Finding {
            input: "voltages: regulator 8, the other settings 0, at 25 C",
            came: outcome(regulator),
            found: "panic: index out of bounds: the len is 8 but the index is 8",
        },
        Finding {
            input: "render: first common 160, still no panic",
            came: lit(160),
            found: "()",
        },
        Finding {
            input: "render: first common 161 (without overflow checks no panic)",
            came: lit(161),
            found: "panic: attempt to subtract with overflow",
        },
        Finding {
            input: "data byte: column 65535 (without overflow checks Ok)",
            came: outcome(write),
            found: "panic: attempt to add with overflow",
        },
    ]
}

/// Clocks that `validate` turns down, used without it.
fn clocks() -> Vec<Finding> {
    let hertz = Parts {
        at: 0,
        whole: 1 << 64,
        remainder: 0,
        denominator: 1,
        fraction: 0,
        ordinal: 0,
    };
    let edges =
        move |parts: Parts, limit| outcome(|| clock::edges_before(&clock::clock(&parts), limit));
    vec![
        Finding {
            input: "edges_before: 1 Hz from 0, fraction 1 (not below its denominator), limit 1 (without overflow checks 2^64 - 1)",
            came: edges(Parts { fraction: 1, ..hertz }, 1),
            found: "panic: attempt to subtract with overflow",
        },
        Finding {
            input: "edges_before: whole 1, denominator 1 (no multiple of 2^64), limit 1",
            came: edges(Parts { whole: 1, ..hertz }, 1),
            found: "panic: attempt to divide by zero",
        },
        Finding {
            input: "after: denominator 0, 4 edges (1 to 3 edges would never end and are not run)",
            came: outcome(|| clock::after(&clock::clock(&Parts { denominator: 0, ..hertz }), 4)),
            found: "panic: attempt to divide by zero",
        },
        Finding {
            input: "new: the fastest rate, 2^64 - 1 over 1, has a whole of 1: UnrepresentableFrequency never comes",
            came: outcome(|| clock::new(0, u64::MAX, 1).map(|clock| clock::parts(&clock).whole)),
            found: "Ok(1)",
        },
    ]
}

/// The ends of time, beyond 2^32 s.
fn ends() -> Vec<Finding> {
    let rise = || {
        let mut controller = selected();
        controller.set_supply(0, 0).expect("a fall");
        let answer = controller.set_supply(1650, u128::MAX);
        (
            answer,
            controller.number("supplied"),
            controller.number("supply_millivolts"),
        )
    };
    let lcd = clock::new(0, 129_024, 1).expect("a clock");
    vec![
        Finding {
            input: "set_supply: 0 at 0, then 1650 at the last moment: an error, with the reset half done; (answer, supplied, supply)",
            came: outcome(rise),
            found: "(Err(Time(Overflow)), Some(1), Some(3000))",
        },
        Finding {
            input: "edges up to the last moment at 129024 Hz: more than 2^64, held at",
            came: outcome(|| clock::edges_to(&lcd, u128::MAX)),
            found: "18446744073709551615",
        },
    ]
}

/// `edges_before` has a second way for horizons beyond about 2^46 s. It is held
/// to the definition there: the edge asked for is before the horizon and the
/// next is not.
fn far_horizons() -> bool {
    let mut random = Random::new(1);
    let mut good = true;
    for _ in 0..100_000 {
        let (p, q) = random.pick(&crate::rates::RATES);
        let lcd = clock::new(random.below_wide(1 << 100), p, q).expect("a clock");
        let limit = random.below_wide(u128::MAX);
        let edges = clock::edges_before(&lcd, limit);
        let before = edges == 0 || clock::after(&lcd, edges).is_ok_and(|at| at < limit);
        let last = edges == u64::MAX || clock::after(&lcd, edges + 1).is_ok_and(|at| at >= limit);
        good &= before && last;
    }
    println!(
        "{} edges_before beyond 2^46 s, 100000 horizons against its definition",
        if good { "as found" } else { "CHANGED " }
    );
    good
}
