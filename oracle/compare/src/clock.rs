//! Questions about the clock: a sweep over every rate and every boundary, then
//! random ones. Times stay below 2^32 s, clocks pass document 01's check 5.
use crate::{
    compare::Compare,
    paper::edge,
    question::{most_edges, Advance, EdgesTo, Micros, NewClock, PassedTo},
    random::Random,
    rates::RATES,
    side::{ClockState, Original, Side, END},
};

const SECOND: u128 = 1 << 64;

/// Microseconds at the ends of the seconds and of the numbers, two to each side.
pub fn edge_micros() -> Vec<Micros> {
    let last = 4_294_967_295_000_000;
    let middles = [
        0,
        21,
        1_000_000,
        2_000_000,
        last,
        last + 1_000_000,
        1 << 32,
        1 << 52,
        1 << 63,
    ];
    let near = |middle: i128| (middle - 2..=middle + 2).chain([i128::from(u64::MAX)]);
    let mut all: Vec<u64> = middles
        .into_iter()
        .flat_map(near)
        .filter_map(|us| us.try_into().ok())
        .collect();
    all.sort_unstable();
    all.dedup();
    all.into_iter().map(Micros).collect()
}

/// Starts of clocks: zero, around a second, a year, and the end of time.
fn starts() -> [u128; 9] {
    let year = 31_557_600 * SECOND;
    [
        0,
        1,
        SECOND - 1,
        SECOND,
        SECOND + 1,
        year,
        END - SECOND,
        END - 2,
        END - 1,
    ]
}

/// Numbers of edges: few, around three and four (where the original's
/// arithmetic changes), around a row, a frame, a second and a day.
fn edge_counts(p: u64) -> [u64; 16] {
    let day = p * 86_400;
    [
        0,
        1,
        2,
        3,
        4,
        5,
        8,
        9,
        15,
        1152,
        1161,
        p - 1,
        p,
        p + 1,
        day,
        day + 1,
    ]
}

/// The moments one unit before an edge, at it and one after, if they are
/// within the limits.
fn around(at: u128) -> impl Iterator<Item = u128> {
    [at.checked_sub(1), Some(at), at.checked_add(1)]
        .into_iter()
        .flatten()
        .filter(|now| *now < END)
}

/// Every rate with every start, fraction and count of the lists above.
pub fn sweep(mut each: impl FnMut(ClockState, u64)) {
    for (p, q) in RATES {
        for at in starts() {
            for fraction in [0, 1, p / 2, p - 1] {
                let clock = ClockState {
                    at,
                    p,
                    q,
                    fraction,
                    ordinal: 0,
                };
                for edges in edge_counts(p) {
                    each(clock, edges);
                }
            }
        }
    }
}

/// A clock of any rate, near a boundary or anywhere.
pub fn random_clock(random: &mut Random) -> ClockState {
    let (p, q) = random.pick(&RATES);
    let at = match random.below(6) {
        0 => random.spread(END),
        1 => random.below_wide(END),
        2 => END - 1 - random.spread(END),
        3 => (random.below(1 << 32) as u128 * SECOND + random.below_wide(9)).saturating_sub(4),
        4 => random.below_wide(16),
        _ => {
            edge(
                &ClockState {
                    at: 0,
                    p,
                    q,
                    fraction: 0,
                    ordinal: 0,
                },
                random.spread(1 << 48) as u64,
            )
            .0 % END
        }
    };
    let fraction = match random.below(4) {
        0 => 0,
        1 => p - 1,
        _ => random.below(p),
    };
    let mut clock = ClockState {
        at,
        p,
        q,
        fraction,
        ordinal: 0,
    };
    let most = most_edges(&clock);
    clock.ordinal = match random.below(3) {
        0 => 0,
        1 => most,
        _ => random.below(most.saturating_add(1)),
    };
    clock
}

/// A number of edges that leaves the clock before 2^32 s.
pub fn random_edges(random: &mut Random, clock: &ClockState) -> u64 {
    let room = (END - 1 - clock.at) / (clock.parts().whole + 1);
    random.spread(room + 1) as u64
}

/// A moment near an edge of the clock, before the clock, or anywhere.
pub fn random_moment(random: &mut Random, clock: &ClockState) -> u128 {
    let edges = random_edges(random, clock);
    let at = edge(clock, edges).0;
    let now = match random.below(8) {
        0..=2 => (at + random.below_wide(3)).saturating_sub(1),
        3 => at + random.below_wide(clock.parts().whole),
        4 => clock.at.saturating_sub(random.spread(END)),
        5 => END - 1 - random.below_wide(4),
        6 => clock.at + random.spread(END),
        _ => random.below_wide(END),
    };
    now.min(END - 1)
}

/// Compares everything; `count` is the number of random rounds.
pub fn run(compare: &mut Compare<Original, impl Side>, random: &mut Random, count: u64) {
    compare.batch(&edge_micros());
    sweep(|clock, edges| {
        compare.batch(&[NewClock {
            at: clock.at,
            rate: (clock.p, clock.q),
        }]);
        let at = edge(&clock, edges).0;
        if at < END {
            compare.batch(&[Advance { clock, edges }]);
        }
        let moments: Vec<EdgesTo> = around(at).map(|now| EdgesTo { clock, now }).collect();
        compare.batch(&moments);
    });
    for _ in 0..count.div_ceil(1024) {
        rounds(compare, random);
    }
}

/// 1024 random questions of each function.
fn rounds(compare: &mut Compare<Original, impl Side>, random: &mut Random) {
    let clocks: Vec<ClockState> = (0..1024).map(|_| random_clock(random)).collect();
    let micros: Vec<Micros> = (0..1024)
        .map(|_| Micros(random.spread(1 << 64) as u64))
        .collect();
    compare.batch(&micros);
    let new = |clock: &ClockState| NewClock {
        at: clock.at,
        rate: (clock.p, clock.q),
    };
    compare.batch(&clocks.iter().map(new).collect::<Vec<_>>());
    let mut edges = |clock: &ClockState| EdgesTo {
        clock: *clock,
        now: random_moment(random, clock),
    };
    compare.batch(&clocks.iter().map(&mut edges).collect::<Vec<_>>());
    let mut moved = |clock: &ClockState| Advance {
        clock: *clock,
        edges: random_edges(random, clock),
    };
    compare.batch(&clocks.iter().map(&mut moved).collect::<Vec<_>>());
    let mut passed = |clock: &ClockState| PassedTo {
        clock: *clock,
        now: random_moment(random, clock),
        limit: random.spread(1 << 64) as u64,
    };
    compare.batch(&clocks.iter().map(&mut passed).collect::<Vec<_>>());
}
