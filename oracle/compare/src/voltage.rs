//! Questions about the voltages: every setting of the eight registers, with
//! temperatures and supplies at the corners of the rules.
use crate::{
    compare::Compare,
    paper::{multiple, target},
    random::Random,
    side::{Original, Side},
};
use original::ask::voltage::Question;

/// The booster settings that a command can give: bit 2 is never set.
pub const BOOSTERS: [u8; 8] = [0, 1, 2, 3, 8, 9, 10, 11];

/// Temperatures at the corners that no setting moves: the ends of the range,
/// 25 degrees, where t becomes 0 for either slope, and the ends of the number.
const TEMPERATURES: [i32; 21] = [
    -30_001,
    -30_000,
    -29_999,
    20_000,
    24_999,
    25_000,
    25_001,
    84_999,
    85_000,
    85_001,
    824_999,
    825_000,
    825_001,
    2_024_999,
    2_025_000,
    2_025_001,
    i32::MIN,
    i32::MIN + 1,
    i32::MAX - 1,
    i32::MAX,
    0,
];

/// Supplies at the corners of supplied, of driven and of the pump.
const SUPPLIES: [u16; 12] = [
    0,
    1,
    1649,
    1650,
    1651,
    2399,
    2400,
    2401,
    3000,
    3600,
    3601,
    u16::MAX,
];

/// Targets at which something changes: none at all, V0's range, the ceiling.
const TARGETS: [i64; 6] = [
    1,
    4_000_000,
    4_000_001,
    15_000_000,
    15_000_001,
    4_294_967_295,
];

/// A question with these settings under the plainest conditions.
pub fn plain(settings: [u8; 8]) -> Question {
    Question {
        settings,
        supply: 3000,
        temperature: 25_000,
        power_save: false,
        waiting: false,
    }
}

/// The corner temperatures of these settings: those above, and the last
/// temperature at which the target is not below each of `TARGETS`, with its
/// neighbours. The target is t × scale, so the bound on t comes by division.
pub fn temperatures(settings: [u8; 8]) -> Vec<i32> {
    let mut all = TEMPERATURES.to_vec();
    let slope = if settings[5] == 0 { 125 } else { 50 };
    // e × gain, read off a target so large that its rounding does not matter.
    let scale = scale(settings);
    for wanted in TARGETS {
        let t = (wanted * 1_500_000 - 750_000 + scale - 1) / scale;
        let last = 25_000 + (100_000_000 - t).div_euclid(slope);
        all.extend((-1..=1).filter_map(|step| i32::try_from(last + step).ok()));
    }
    all
}

/// e × gain: at 25 degrees t is 100,000,000, so the target is e × gain × 200/3.
fn scale(settings: [u8; 8]) -> i64 {
    (i64::from(target(&plain(settings))) * 3 + 100) / 200
}

/// A corner supply: one of the list, or one at which the pump is just above
/// the target and its 3 V, or one below.
fn supply(random: &mut Random, question: &Question) -> u16 {
    let wanted = (u64::from(target(question)) + 3_000_000)
        / 1000
        / u64::from(multiple(question.settings[3]));
    match random.below(8) {
        0..=2 => (wanted + random.below(2)).min(65_535) as u16,
        3 => random.pick(&SUPPLIES),
        4..=6 => 2400 + random.below(1201) as u16,
        _ => random.next() as u16,
    }
}

fn temperature(random: &mut Random, corners: &[i32]) -> i32 {
    match random.below(8) {
        0..=2 => random.pick(corners),
        3..=6 => random.below(115_003) as i32 - 30_001,
        _ => random.next() as i32,
    }
}

/// A question with these settings at random corners.
pub fn cornered(random: &mut Random, settings: [u8; 8], corners: &[i32]) -> Question {
    let mut question = plain(settings);
    question.temperature = temperature(random, corners);
    question.supply = supply(random, &question);
    question.power_save = random.one_in(16);
    question.waiting = random.one_in(16);
    question
}

/// Any settings that commands can give. Everything is on half the time, since
/// there are levels to compare only then.
pub fn random_settings(random: &mut Random) -> [u8; 8] {
    let most = crate::question::MOST;
    let mut settings = most.map(|most| random.below(u64::from(most) + 1) as u8);
    settings[3] = random.pick(&BOOSTERS);
    if random.one_in(2) {
        settings[2] = 7;
    }
    settings
}

/// The settings that decide the target: contrast, regulator, slope, trim, OTP.
fn target_settings() -> impl Iterator<Item = [u8; 8]> {
    (0..1u32 << 16).map(|n| {
        let bits = |from: u32, count: u32| (n >> from & ((1 << count) - 1)) as u8;
        [
            bits(0, 6),
            bits(6, 3),
            0,
            0,
            0,
            bits(9, 1),
            bits(10, 4),
            bits(14, 2),
        ]
    })
}

/// Compares all 33,554,432 settings `rounds` times, each time at other corners,
/// and each target setting at each of its corner temperatures besides.
pub fn run(compare: &mut Compare<Original, impl Side>, random: &mut Random, rounds: u64) {
    for settings in target_settings() {
        let corners = temperatures(settings);
        compare.batch(&every_corner(random, settings, &corners));
        for _ in 0..rounds {
            compare.batch(&every_level(random, settings, &corners));
        }
    }
}

/// Each corner temperature, with everything on and a random supply.
fn every_corner(random: &mut Random, settings: [u8; 8], corners: &[i32]) -> Vec<Question> {
    let mut at = |temperature: &i32| {
        let mut question = plain(settings);
        question.temperature = *temperature;
        question.settings[2] = 7;
        question.settings[3] = random.pick(&BOOSTERS);
        question.settings[4] = random.below(8) as u8;
        question.supply = supply(random, &question);
        question
    };
    corners.iter().map(&mut at).collect()
}

/// The 512 settings of power control, booster and bias.
fn every_level(random: &mut Random, settings: [u8; 8], corners: &[i32]) -> Vec<Question> {
    let mut level = |n: usize| {
        let mut settings = settings;
        settings[2] = (n & 7) as u8;
        settings[3] = BOOSTERS[n >> 3 & 7];
        settings[4] = (n >> 6) as u8;
        cornered(random, settings, corners)
    };
    (0..512).map(&mut level).collect()
}
