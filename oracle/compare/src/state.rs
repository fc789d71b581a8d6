//! Random controllers of the original: reached by calls, or damaged copies of
//! those.
use crate::{
    clock::random_clock,
    random::Random,
    side::{ClockState, END},
};
use original::ask::{clock::micros, controller::Controller};

/// A call at a moment.
#[derive(Clone, Copy, Debug, PartialEq, Eq)]
pub enum Call {
    Bits { bits: u8, count: u8 },
    Byte(u8),
    Data(bool),
    Select(bool),
    Supply(u16),
    Temperature(i32),
    Deadline,
    Lose,
    Drive,
    Render,
}

#[derive(Clone, Copy, Debug, PartialEq, Eq)]
pub struct Step {
    pub now: u128,
    pub call: Call,
}

/// Performs a call; an error of the original as its words.
pub fn perform(controller: &mut Controller, step: &Step) -> Result<(), String> {
    let now = step.now;
    let done = match step.call {
        Call::Bits { bits, count } => controller.shift_in(bits, count, now),
        Call::Byte(byte) => controller.byte(byte, now),
        Call::Data(data) => {
            controller.command_data(data);
            Ok(())
        }
        Call::Select(selected) => {
            controller.select(selected);
            Ok(())
        }
        Call::Supply(rail) => controller.set_supply(rail, now),
        Call::Temperature(millicelsius) => {
            controller.set_temperature(millicelsius);
            Ok(())
        }
        Call::Deadline => {
            controller.at_deadline(controller.deadline().unwrap_or(now));
            Ok(())
        }
        Call::Lose => {
            controller.lose_volatile();
            Ok(())
        }
        Call::Drive => controller.drive(now).map(|_| ()),
        Call::Render => {
            controller.render(&mut [0; original::ask::controller::PIXELS]);
            Ok(())
        }
    };
    done.map_err(|error| format!("{error:?}"))
}

/// Bytes that start something: scan, oscillator, duty, gray mode, inversion,
/// power. Other bytes come at random.
const BYTES: [u8; 24] = [
    0xab, 0xaf, 0xa8, 0xa9, 0xa3, 0xa2, 0x2f, 0x48, 0x10, 0x80, 0x4c, 0x01, 0x00, 0x90, 0x93, 0x97,
    0xf7, 0x02, 0x01, 0xf6, 0x1f, 0xe2, 0xe4, 0xee,
];

fn random_call(random: &mut Random) -> Call {
    match random.below(32) {
        0 => Call::Select(random.one_in(2)),
        1 => Call::Data(random.one_in(3)),
        2 => Call::Supply(random.pick(&[0, 1649, 1650, 2399, 2400, 3000, 3600])),
        3 => Call::Temperature(random.next() as i32),
        4..=5 => Call::Deadline,
        6 => Call::Lose,
        7..=9 => Call::Drive,
        10 => Call::Render,
        11..=13 => {
            let count = random.below(9) as u8;
            Call::Bits {
                bits: random.below(1 << count) as u8,
                count,
            }
        }
        14..=24 => Call::Byte(random.pick(&BYTES)),
        _ => Call::Byte(random.next() as u8),
    }
}

/// Gaps between calls, as powers of two in fraction units: from parts of a
/// quantum to minutes.
pub const GAPS: [u32; 4] = [48, 56, 64, 72];

/// The bytes that await a parameter.
const AWAITING: [u8; 18] = [
    0x40, 0x44, 0x48, 0x4b, 0x4c, 0x4f, 0x81, 0x88, 0x89, 0x8a, 0x8d, 0x8f, 0xf1, 0xf3, 0xf4, 0xf6,
    0xf7, 0xf7,
];

/// A command and its parameter, one after the other.
fn random_pair(random: &mut Random) -> [Call; 2] {
    let any = random.next() as u8;
    let small = random.below(34) as u8;
    let parameter = random.pick(&[any, small, small, 0, 1, 2, 15, 16, 127, 128, 129]);
    [Call::Byte(random.pick(&AWAITING)), Call::Byte(parameter)]
}

/// Calls at growing moments from `now`, close together or far apart.
pub fn random_steps(random: &mut Random, mut now: u128, count: u64, gaps: &[u32]) -> Vec<Step> {
    let mut steps = Vec::new();
    for _ in 0..count {
        let bits = random.pick(gaps);
        now = (now + random.spread(1 << bits)).min(END - 1);
        if random.one_in(3) {
            steps.extend(random_pair(random).map(|call| Step { now, call }));
        } else {
            steps.push(Step {
                now,
                call: random_call(random),
            });
        }
    }
    steps
}

/// The state that these calls reach from power-on, selected.
pub fn reached_from(steps: &[Step]) -> Controller {
    let mut controller = Controller::new();
    controller.select(true);
    for step in steps {
        perform(&mut controller, step).expect("a reached state takes every call");
    }
    controller.events.clear();
    controller
}

/// Puts the bytes that start the scan and the display before the calls, and a
/// picture into RAM, so that there is something to count and to show.
pub fn starting(steps: &mut Vec<Step>, random: &mut Random) {
    let now = steps.first().map_or(0, |step| step.now);
    let mut calls: Vec<Call> = [0xab, 0xaf, 0x2f].map(Call::Byte).to_vec();
    let page = 0xb0 + random.below(16) as u8;
    calls.extend([Call::Byte(page), Call::Data(true)]);
    calls.extend((0..24).map(|_| Call::Byte(random.next() as u8)));
    calls.push(Call::Data(false));
    steps.splice(0..0, calls.into_iter().map(|call| Step { now, call }));
}

/// A state that calls reach from power-on, selected, and its moment.
pub fn reached(random: &mut Random) -> (Controller, u128) {
    let start = random.pick(&[0, micros(1), END / 2, END - (1 << 80)]);
    let count = random.below(60);
    let steps = random_steps(random, start, count, &GAPS);
    (
        reached_from(&steps),
        steps.last().map_or(start, |step| step.now),
    )
}

/// A state that calls reach after the bytes that start the scan.
pub fn started(random: &mut Random) -> Controller {
    let start = random.pick(&[0, micros(1), END / 2, END - (1 << 80)]);
    let count = random.below(60);
    let mut steps = random_steps(random, start, count, &GAPS);
    starting(&mut steps, random);
    reached_from(&steps)
}

/// The image of `scan.clock` with this clock in it.
pub fn clock_image(clock: &ClockState) -> Vec<u8> {
    let parts = clock.parts();
    let mut image = vec![1];
    image.extend(parts.at.to_le_bytes());
    image.extend(parts.whole.to_le_bytes());
    for word in [
        parts.remainder,
        parts.denominator,
        parts.fraction,
        parts.ordinal,
    ] {
        image.extend(word.to_le_bytes());
    }
    image
}

/// Puts something else into one part: the same bytes a little changed, an
/// Option that comes or goes, or the clock of another rate and time.
pub fn damage(random: &mut Random, controller: &mut Controller) {
    let names = Controller::names();
    let name = &names[2 + random.below(names.len() as u64 - 2) as usize];
    let part = Controller::part(name).expect("a listed name");
    let mut image = controller.get(&part).expect("a listed name");
    let at = random.below(image.len() as u64) as usize;
    match random.below(5) {
        0 => image = vec![0; image.len()],
        1 => image[at] = image[at].wrapping_add(random.pick(&[1, 255])),
        2 if name == "scan.clock" => image = clock_image(&random_clock(random)),
        2 => image[at] ^= 1 << random.below(8),
        3 => image
            .iter_mut()
            .for_each(|byte| *byte = random.next() as u8),
        _ => {
            let length = random.pick(&[0, 1, 2, 16, 56]);
            image = vec![u8::from(length != 0)];
            image.extend((0..length).map(|_| random.next() as u8));
        }
    }
    // An image of the wrong form leaves the part as it was.
    let _ = controller.set(&part, &image);
}

/// The parts that are not as at power-on, by name, with their image in
/// hexadecimal.
pub fn show(controller: &Controller) -> String {
    let fresh = Controller::new();
    let mut out = Vec::new();
    for name in Controller::names() {
        let part = Controller::part(&name).expect("a listed name");
        let image = controller.get(&part).expect("a listed name");
        if image != fresh.get(&part).expect("a listed name") {
            let digits: String = image
                .iter()
                .take(64)
                .map(|byte| format!("{byte:02x}"))
                .collect();
            out.push(format!("{name}={digits}"));
        }
    }
    out.join(" ")
}
