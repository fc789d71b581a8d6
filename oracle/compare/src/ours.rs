//! Our proved library as a side of a comparison.
use crate::{
    any::{Checked, Pair, Refused},
    ffi::{self, clock_words, parts, wide},
    paper,
    side::{ClockState, Named, Side},
};
use nt7508::words::{clock, voltage};
use original::{
    ask::{clock::Parts, voltage::Question},
    devices::nt7508::LcdVoltages,
};

/// What a lent array holds before a call: a refusal must leave it so.
const LENT: u64 = 0x5a5a_a5a5_1234_4321;

fn level(word: u64) -> Option<u32> {
    assert!(word <= 1 << 32, "a level is at most 2^32");
    u32::try_from(word).ok()
}

/// The answer behind a number, if it is 0. After a refusal what was lent must
/// be as it was.
fn answer<T, L: PartialEq>(
    number: u64,
    now: L,
    before: L,
    made: impl FnOnce(L) -> T,
) -> Refused<T> {
    match number {
        0 => Ok(made(now)),
        _ => {
            assert!(now == before, "a refusal changed what was lent");
            Err(number)
        }
    }
}

pub struct Ours;

impl Named for Ours {
    const NAME: &'static str = "ours";
}

impl Checked for Ours {
    fn try_new(&mut self, at: u128, p: u64, q: u64) -> Refused<Parts> {
        let mut out = [LENT; 8];
        let number = clock::new(at, p, q, &mut out);
        answer(number, out, [LENT; 8], |out| parts(&out))
    }
    fn try_check(&mut self, parts: &Parts, p: u64, q: u64) -> Refused<()> {
        let number = clock::check(&clock_words(parts), p, q);
        answer(number, (), (), |()| ())
    }
    fn try_edges(&mut self, parts: &Parts, p: u64, q: u64, now: u128) -> Refused<u64> {
        let mut out = LENT;
        let number = clock::edges_to(&clock_words(parts), p, q, now, &mut out);
        answer(number, out, LENT, |out| out)
    }
    fn try_move(&mut self, given: &Parts, p: u64, q: u64, edges: u64) -> Refused<Parts> {
        let before = clock_words(given);
        let mut moved = before;
        let number = clock::moved(&mut moved, p, q, edges);
        answer(number, moved, before, |moved| parts(&moved))
    }
    fn try_pass(
        &mut self,
        given: &Parts,
        rate: (u64, u64),
        now: u128,
        limit: u64,
    ) -> Refused<(u64, Parts)> {
        let before = (LENT, clock_words(given));
        let (mut count, mut moved) = before;
        let number = clock::passed_to(&mut moved, rate, now, limit, &mut count);
        answer(number, (count, moved), before, |(count, moved)| {
            (count, parts(&moved))
        })
    }
    fn try_settings(&mut self, settings: [u8; 8]) -> bool {
        voltage::valid(&settings)
    }
    fn try_voltages(&mut self, question: &Question) -> Refused<LcdVoltages> {
        let mut out = [LENT; 7];
        let number = ffi::voltages(question, &mut out);
        answer(number, out, [LENT; 7], |out| LcdVoltages {
            target: level(out[0]).expect("a target is no absent level"),
            pump: level(out[1]),
            levels: [2, 3, 4, 5, 6].map(|index| level(out[index])),
        })
    }
    fn try_find(&mut self, band: (u32, u32), settings: [u8; 8], temperature: i32) -> Refused<Pair> {
        let mut out = [LENT; 3];
        let number = voltage::find_setting(band, &settings, temperature, &mut out);
        answer(number, out, [LENT; 3], |out| match out {
            [0, 0, 0] => Pair::None,
            [1, regulator @ 0..=7, contrast @ 0..=63] => {
                let pair = (regulator as u8, contrast as u8);
                let target = paper::target_at(settings, temperature, pair);
                if (band.0..=band.1).contains(&target) {
                    Pair::Fits
                } else {
                    Pair::Outside(pair)
                }
            }
            _ => panic!("no answer of the finder: {out:?}"),
        })
    }
}

/// Within the limits nothing may be refused.
impl Side for Ours {
    fn micros(&mut self, us: u64) -> u128 {
        let mut out = [LENT; 2];
        clock::micros(us, &mut out);
        wide(out[0], out[1])
    }
    fn new_clock(&mut self, at: u128, p: u64, q: u64) -> Parts {
        self.try_new(at, p, q).expect("a new clock")
    }
    fn edges_to(&mut self, clock: &ClockState, now: u128) -> u64 {
        self.try_edges(&clock.parts(), clock.p, clock.q, now)
            .expect("a count")
    }
    fn advance(&mut self, clock: &ClockState, edges: u64) -> ClockState {
        let moved = self.try_move(&clock.parts(), clock.p, clock.q, edges);
        clock.moved(moved.expect("a moved clock"))
    }
    fn passed_to(&mut self, clock: &ClockState, now: u128, limit: u64) -> (u64, ClockState) {
        let passed = self.try_pass(&clock.parts(), (clock.p, clock.q), now, limit);
        let (count, moved) = passed.expect("a moved clock");
        (count, clock.moved(moved))
    }
    fn voltages(&mut self, question: &Question) -> LcdVoltages {
        self.try_voltages(question).expect("voltages")
    }
}
