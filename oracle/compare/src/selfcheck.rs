//! Shows that the oracle is right: document 01's session and edge figures come
//! out of the compiled Rust, images go in and out unchanged, and the few lines
//! that `ask` had to write itself agree with the original.
use crate::{
    cases::edge_figures,
    clock::{random_clock, random_moment},
    random::Random,
    rates::RATES,
    side::ClockState,
    state::{clock_image, damage, reached},
    voltage::{cornered, random_settings, temperatures},
};
use original::{
    ask::{
        clock::{self, micros},
        controller::Controller,
        voltage::{Bench, Question, SETTINGS},
    },
    signals::Event,
};

/// Checks in turn, each printed with its verdict.
struct Checks {
    good: bool,
}

impl Checks {
    fn check(&mut self, good: bool, what: &str) {
        println!("{} {what}", if good { "ok  " } else { "BAD " });
        self.good &= good;
    }
}

pub fn run(seed: u64) -> bool {
    println!("seed {seed}");
    let mut checks = Checks { good: true };
    session(&mut checks);
    figures(&mut checks);
    images(&mut checks, &mut Random::new(seed));
    edges(&mut checks, &mut Random::new(seed));
    groups(&mut checks);
    bench(&mut checks, &mut Random::new(seed));
    checks.good
}

/// A line of the session program for a `drive` at `us` microseconds.
fn drive_line(controller: &Controller, us: u64) -> String {
    let now = micros(us);
    let drive = controller.drive(now).expect("a drive");
    let shown = controller.counted(now).expect("a scan");
    let field = |name: &str| shown.number(name).expect("a number");
    let dash = |number: Option<u128>| number.map_or("-".to_string(), |number| number.to_string());
    let frame = drive.common.map(|_| field("scan.duty") * field("scan.pwm"));
    let lit: u32 = drive.segments.iter().map(|word| word.count_ones()).sum();
    format!(
        "{us} {} {} {} {lit} {}",
        dash(drive.common.map(u128::from)),
        u8::from(drive.inverted),
        dash(drive.voltages.levels[0].map(u128::from)),
        dash(frame),
    )
}

fn session(checks: &mut Checks) {
    let mut controller = Controller::new();
    controller.select(true);
    for byte in [147, 165, 47, 171, 175] {
        controller.byte(byte, 0).expect("a command");
    }
    let line = drive_line(&controller, 1000);
    println!("us common inverted v0 lit frame\n{line}");
    checks.check(
        line == "1000 8 0 4142731 128 1920",
        "session of document 01",
    );
}

/// A selected controller that was given these command bytes at 0.
fn commanded(bytes: &[u8]) -> Controller {
    let mut controller = Controller::new();
    controller.select(true);
    for byte in bytes {
        controller.byte(*byte, 0).expect("a command");
    }
    controller
}

fn figures(checks: &mut Checks) {
    let mut bench = Bench::new();
    let volts: Vec<_> = edge_figures()
        .iter()
        .map(|question| bench.voltages(question))
        .collect();
    for (name, volts) in ["P1", "P2", "P3 61", "P3 62", "P4 3000", "P4 3001"]
        .iter()
        .zip(&volts)
    {
        println!("{name}: {volts:?}");
    }
    checks.check(volts[0].target == 4_117_000, "P1 target 4,117,000");
    checks.check(volts[1].target == 4_142_731, "P2 target 4,142,731");
    let third = (
        volts[2].target,
        volts[2].levels[0],
        volts[3].target,
        volts[3].levels[0],
    );
    checks.check(
        third == (14_976_000, Some(14_976_000), 15_048_000, None),
        "P3 V0 up to 15 V",
    );
    let fourth = (volts[4].target, volts[4].levels[0], volts[5].levels[0]);
    checks.check(
        fourth == (6_000_000, None, Some(6_000_000)),
        "P4 V0 from 3001 mV",
    );
    let fifth = [5_500_000, 5_000_000, 1_000_000, 500_000].map(Some);
    checks.check(volts[5].levels[1..] == fifth, "P5 V1 to V4");
    sixth_to_eighth(checks);
}

fn sixth_to_eighth(checks: &mut Checks) {
    let inversion = |byte| commanded(&[0x4c, byte]).number("inversion_lines");
    let sixth = [0, 1, 31, 32].map(inversion);
    println!("P6: {sixth:?}");
    checks.check(sixth == [0, 3, 33, 0].map(Some), "P6 inversion 0, 3, 33, 0");
    let duty = |byte| {
        let controller = commanded(&[0x48, 20, 0x48, byte]);
        let last = controller.events.last().copied();
        let event = matches!(last, Some(Event::LcdControl { command: 0x48, parameter, .. }) if parameter == Some(byte));
        (controller.number("duty"), controller.events.len(), event)
    };
    let seventh = [15, 129, 16, 128].map(duty);
    println!("P7: {seventh:?}");
    let wanted = [20, 20, 16, 128].map(|duty| (Some(duty), 2, true));
    checks.check(
        seventh == wanted,
        "P7 duty 15 and 129 change nothing, 16 and 128 are taken",
    );
    let start = clock::new(0, 129_024, 1).expect("a clock");
    let eighth = [(1u128 << 64) - 1, 1 << 64].map(|now| clock::edges_to(&start, now));
    println!("P8: {eighth:?}");
    checks.check(
        eighth == [129_023, 129_024],
        "P8 edges at one second and a unit before",
    );
}

/// Images of reached and damaged states come back as the same state and bytes;
/// images of another form do not come back at all.
fn images(checks: &mut Checks, random: &mut Random) {
    let (mut same, mut refused) = (true, true);
    for _ in 0..2000 {
        let (mut controller, _) = reached(random);
        (0..random.below(3)).for_each(|_| damage(random, &mut controller));
        let image = controller.image();
        let back = Controller::from_image(&image);
        same &= back.as_ref() == Ok(&controller) && back.is_ok_and(|back| back.image() == image);
        let long = [&image[..], &[0]].concat();
        let mut mark = image.clone();
        mark[4096 + 256] = 2; // `selected`, the first bool after RAM and icons
        let wrong = [&image[..image.len() - 1], &long, &mark];
        refused &= wrong
            .iter()
            .all(|wrong| Controller::from_image(wrong).is_err());
    }
    checks.check(same, "2000 states go through their images unchanged");
    checks.check(
        refused,
        "images short, long or with a wrong mark are refused",
    );
    checks.check(
        Controller::new().image().len() == 4448,
        "the power-on image has 4,448 bytes",
    );
}

/// `ask::clock::edges_to` repeats lines of the private `project_scan`. Here the
/// clock stands in a scan of the same rate with nothing else to take over, and
/// the edges that the scan counts are read from its ordinal.
fn edges(checks: &mut Checks, random: &mut Random) {
    let mut same = 0;
    let total = 20_000;
    for _ in 0..total {
        let clock = random_clock(random);
        let now = random_moment(random, &clock);
        let controller = scanning(&clock);
        let counted = controller.counted(now).expect("a scan");
        let ordinal = counted.number("scan.clock.ordinal").expect("a clock") as u64;
        let edges = clock::edges_to(&clock::clock(&clock.parts()), now);
        same += u64::from(ordinal - clock.ordinal == edges);
    }
    checks.check(
        same == total,
        "20000 counts of edges are those of the scan itself",
    );
}

/// A controller whose scan runs by this clock, its settings those of the rate.
fn scanning(clock: &ClockState) -> Controller {
    let mut controller = Controller::new();
    let index = RATES
        .iter()
        .position(|rate| *rate == (clock.p, clock.q))
        .expect("an LCD rate");
    let mut put = |name: &str, image: &[u8]| controller.put(name, image).expect("a field");
    put("oscillator_enabled", &[1]);
    if index < 114 {
        let rows = 16 + index as u8;
        let (duty, icon) = (rows.min(128), u8::from(rows > 128));
        [
            ("duty", duty),
            ("icon_enabled", icon),
            ("scan.duty", duty),
            ("scan.icon", icon),
        ]
        .iter()
        .for_each(|(name, value)| put(name, &[*value]));
    } else {
        put("oscillator_control", &[2]);
        put("oscillator_frequency", &[index as u8 - 114]);
    }
    put("scan.rate.0", &clock.p.to_le_bytes());
    put("scan.rate.1", &clock.q.to_le_bytes());
    put("scan.clock", &clock_image(clock));
    controller
}

/// A group of up to eight bits does what its edges do one by one, from every
/// count of bits already held.
fn groups(checks: &mut Checks) {
    let mut same = true;
    for held in 0..8 {
        let mut start = commanded(&[0xab]);
        start.shift_in(0, held, 0).expect("bits");
        for count in 0..=8u8 {
            for bits in 0..1u16 << count {
                let (mut group, mut single) = (start.clone(), start.clone());
                group.shift_in(bits as u8, count, 9).expect("a group");
                for bit in (0..count).rev() {
                    single.rising(bits >> bit & 1 != 0, 9).expect("an edge");
                }
                same &= group == single;
            }
        }
    }
    checks.check(
        same,
        "groups of 0 to 8 bits are the same as their single edges",
    );
}

/// The fast path gives what a controller built from an image gives.
fn bench(checks: &mut Checks, random: &mut Random) {
    let mut bench = Bench::new();
    let mut same = true;
    for _ in 0..20_000 {
        let settings = random_settings(random);
        let question = cornered(random, settings, &temperatures(settings));
        let built = built(&question);
        same &= bench.voltages(&question) == built.voltages() && bench.controller() == &built;
    }
    checks.check(
        same,
        "20000 fast voltage answers are those of states built from images",
    );
}

/// A controller from an image, with the question's settings put into it.
fn built(question: &Question) -> Controller {
    let mut controller = Controller::from_image(&Controller::new().image()).expect("its own image");
    let mut put = |name: &str, image: &[u8]| controller.put(name, image).expect("a field");
    SETTINGS
        .iter()
        .zip(question.settings)
        .for_each(|(name, value)| put(name, &[value]));
    put("supplied", &[u8::from(question.supply >= 1650)]);
    put("supply_millivolts", &question.supply.to_le_bytes());
    put(
        "temperature_millicelsius",
        &question.temperature.to_le_bytes(),
    );
    put("power_save", &[u8::from(question.power_save)]);
    let mut ready = vec![u8::from(question.waiting)];
    ready.resize(if question.waiting { 17 } else { 1 }, 0);
    put("ready", &ready);
    Controller::from_image(&controller.image()).expect("its own image")
}
