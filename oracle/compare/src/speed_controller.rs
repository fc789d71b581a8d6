//! How long the calls of the controller take, a whole screen, and a session of
//! 65,536 bytes. Ours makes a state of the block's words, checks it, and makes
//! words of the state again, which a call that does little else shows.
use crate::{
    block::{block, Block, CLOCK},
    random::Random,
    session::{Session, LONGEST, NAMES},
    speed::{line, ours_alone, running, scanned, timed, timed_on, timed_on_copies, Scanned},
};
use nt7508::{
    words::{controller, session, Lent, LentMut},
    Nt7508, Time, LISTING_BYTES, STATE_WORDS,
};
use original::ask::controller::{Controller, PIXELS};
use std::hint::black_box;

/// What ours holds of a controller.
#[derive(Clone)]
struct Held {
    block: Block,
    ram: Vec<u8>,
    icons: Vec<u8>,
}

impl Held {
    fn of(state: &Controller) -> Self {
        Self {
            block: block(state),
            ram: state.ram().to_vec(),
            icons: state.icons().to_vec(),
        }
    }
    fn lent(&self) -> Lent<'_> {
        Lent {
            ram: &self.ram,
            icons: &self.icons,
        }
    }
    fn parts(&mut self) -> (&mut Block, LentMut<'_>) {
        let lent = LentMut {
            ram: &mut self.ram,
            icons: &mut self.icons,
        };
        (&mut self.block, lent)
    }
    /// A whole byte.
    fn byte(&mut self, byte: u8, now: u128, event: &mut [u64; 8]) -> u64 {
        let (block, lent) = self.parts();
        controller::shift_in(block, (byte, 8), now, lent, event)
    }
}

/// A row of bytes: its name, the state that they find, whether they are data, how
/// far they are apart, and which they are.
type Row<'a> = (&'a str, &'a Controller, bool, u32, fn(u64) -> u8);

/// Whole bytes to a controller that runs: commands that change nothing, data for
/// page 0, and the oscillator's frequency, by which every second byte changes the
/// rate of the scan.
fn bytes() {
    let running = running();
    let by_oscillator = {
        let mut by_oscillator = running.clone();
        for byte in [0xf7, 2] {
            by_oscillator.byte(byte, 0).expect("a command");
        }
        by_oscillator.events.clear();
        by_oscillator
    };
    let same = |_: u64| 0xe3;
    let rates = |number: u64| [0xf6, 0, 0xf6, 8][number as usize % 4];
    let rows: [Row; 6] = [
        (
            "command byte, 61 µs after the last",
            &running,
            false,
            50,
            same,
        ),
        (
            "command byte, 4 µs after the last",
            &running,
            false,
            46,
            same,
        ),
        ("data byte, 61 µs after the last", &running, true, 50, same),
        ("data byte, 4 µs after the last", &running, true, 46, same),
        (
            "byte that changes the scan's rate, 61 µs after the last",
            &by_oscillator,
            false,
            50,
            rates,
        ),
        (
            "byte that changes the scan's rate, 4 µs after the last",
            &by_oscillator,
            false,
            46,
            rates,
        ),
    ];
    for (name, state, data, apart, byte) in rows {
        let mut original = state.clone();
        original.command_data(data);
        let mut ours = Held::of(&original);
        let mut event = [0; 8];
        line(
            name,
            timed_on(|number| {
                let now = u128::from(number) << apart;
                let done = original.shift_in(byte(number), 8, now);
                done.expect("a byte");
                original.events.clear();
            }),
            timed_on(|number| {
                let now = u128::from(number) << apart;
                black_box(ours.byte(byte(number), now, &mut event));
                black_box(&event);
            }),
        );
        assert!(CLOCK.get(&ours.block) == 1, "a scan that runs");
    }
    edges(&running);
}

/// Single edges, an eighth of which end a byte.
fn edges(running: &Controller) {
    let mut original = running.clone();
    let mut ours = Held::of(&original);
    let mut event = [0; 8];
    line(
        "one edge, 8 µs after the last",
        timed_on(|number| {
            let done = original.rising(0xe3 >> (7 - number % 8) & 1 != 0, u128::from(number) << 47);
            done.expect("a bit");
            original.events.clear();
        }),
        timed_on(|number| {
            let (block, lent) = ours.parts();
            let bit = 0xe3 >> (7 - number % 8) & 1 != 0;
            black_box(controller::rising(
                block,
                bit,
                u128::from(number) << 47,
                lent,
                &mut event,
            ));
            black_box(&event);
        }),
    );
}

/// The calls that change little: of ours nearly all is the crossing and the
/// checks.
fn small_calls() {
    type Theirs = fn(&mut Controller, u64);
    type Ours = fn(&mut Held, u64) -> u64;
    let rows: [(&str, Theirs, Ours); 5] = [
        (
            "data line",
            |state, number| state.command_data(number % 2 == 0),
            |held, number| controller::command_data(&mut held.block, number % 2 == 0),
        ),
        (
            "select",
            |state, number| state.select(number % 2 == 0),
            |held, number| controller::select(&mut held.block, number % 2 == 0),
        ),
        (
            "temperature",
            |state, number| state.set_temperature(number as i32),
            |held, number| controller::set_temperature(&mut held.block, number as i32),
        ),
        (
            "deadline call without a wait",
            |state, number| state.at_deadline(u128::from(number)),
            |held, number| controller::at_deadline(&mut held.block, u128::from(number)),
        ),
        (
            "supply, a fall and a warm rise in turn",
            |state, number| {
                let rail = [1, 3000][number as usize % 2];
                state
                    .set_supply(rail, u128::from(number) << 46)
                    .expect("a supply");
            },
            |held, number| {
                let rail = [1, 3000][number as usize % 2];
                let now = u128::from(number) << 46;
                controller::set_supply(&mut held.block, rail, now)
            },
        ),
    ];
    for (name, theirs, ours) in rows {
        let mut original = running();
        let mut held = Held::of(&original);
        line(
            name,
            timed_on(|number| theirs(black_box(&mut original), number)),
            timed_on(|number| {
                black_box(ours(black_box(&mut held), number));
            }),
        );
    }
}

/// Calls that look, by the controller.
fn looks(all: &[(Held, Scanned)]) {
    let (mut out, mut frame) = ([0; 12], 0);
    for (name, back) in [
        ("drive, a second after the last edge", 0),
        ("drive, at the last edge", 1 << 64),
    ] {
        line(
            name,
            timed(all, |(_, at)| {
                black_box(&at.state.drive(at.now - back));
            }),
            timed(all, |(held, at)| {
                let lent = held.lent();
                let now = at.now - back;
                black_box(controller::drive(
                    &held.block,
                    now,
                    lent,
                    &mut out,
                    &mut frame,
                ));
                black_box((&out, &frame));
            }),
        );
    }
    let (mut pixels, mut ours) = ([0; PIXELS], [0; PIXELS]);
    line(
        "image",
        timed(all, |(_, at)| {
            at.state.render(&mut pixels);
            black_box(&pixels);
        }),
        timed(all, |(held, _)| {
            black_box(controller::render(&held.block, held.lent(), &mut ours));
            black_box(&ours);
        }),
    );
    let mut levels = [0; 7];
    line(
        "voltages of the controller",
        timed(all, |(_, at)| {
            black_box(&at.state.voltages());
        }),
        timed(all, |(held, _)| {
            black_box(controller::voltages(&held.block, &mut levels));
            black_box(&levels);
        }),
    );
    let (mut edges, mut end) = (0, [0; 3]);
    line(
        "edges until the byte completes",
        timed(all, |(_, at)| {
            black_box(at.state.serial_effect_edges(true));
        }),
        timed(all, |(held, _)| {
            black_box(controller::serial_effect_edges(
                &held.block,
                true,
                &mut edges,
            ));
            black_box(&edges);
        }),
    );
    line(
        "end of the wait",
        timed(all, |(_, at)| {
            black_box(&at.state.deadline());
        }),
        timed(all, |(held, _)| {
            black_box(controller::deadline(&held.block, &mut end));
            black_box(&end);
        }),
    );
    let mut found = [0; 3];
    ours_alone(
        "setting finder of the controller, no pair in the band",
        timed(all, |(held, _)| {
            black_box(controller::find_setting(&held.block, (1, 2), &mut found));
            black_box(&found);
        }),
    );
}

/// Calls on the state as a whole. The original's `validate` is `restore`; it has no
/// update.
fn whole_state(all: &[(Held, Scanned)]) {
    line(
        "restore",
        timed(all, |(_, at)| {
            black_box(&at.state.validate(at.now).is_ok());
        }),
        timed_on_copies(
            all,
            |(held, _)| held.clone(),
            |(_, at), held| {
                let lent = Lent {
                    ram: &held.ram,
                    icons: &held.icons,
                };
                black_box(controller::restore(&mut held.block, at.now, lent));
            },
        ),
    );
    ours_alone(
        "update over a second",
        timed_on_copies(
            all,
            |(held, _)| held.block,
            |(_, at), block| {
                black_box(controller::update(block, at.now, &mut 0));
            },
        ),
    );
    line(
        "loss of memory",
        timed_on_copies(
            all,
            |(_, at)| at.state.clone(),
            |_, state| state.lose_volatile(),
        ),
        timed_on_copies(
            all,
            |(held, _)| held.clone(),
            |_, held| {
                let (block, lent) = held.parts();
                black_box(controller::lose_volatile(block, lent));
            },
        ),
    );
}

/// The bytes of a screen with the level of the data line: for each of 8 pages its
/// number and the column as commands, then 192 bytes of data.
fn screen() -> Vec<(bool, Vec<u8>)> {
    let page = |page: u8| {
        let data = (0..192)
            .map(|column: u8| column.wrapping_mul(page + 3))
            .collect();
        [(false, vec![0xb0 + page, 0x10, 0x00]), (true, data)]
    };
    (0..8).flat_map(page).collect()
}

/// A whole screen, a byte every 4 µs, by the wrapper's own type.
fn screens() {
    let (screen, running) = (screen(), running());
    let mut original = running.clone();
    let held = Held::of(&running);
    let (ram, icons) = (*running.ram(), *running.icons());
    let mut ours = Nt7508::restore(held.block, ram, icons, Time::ZERO).expect("a state");
    let (mut theirs_at, mut ours_at) = (0u128, 0u128);
    line(
        "whole screen: 1,536 data bytes, 24 commands, 16 changes of the data line",
        timed_on(|_| {
            for (data, bytes) in &screen {
                original.command_data(*data);
                for byte in bytes {
                    theirs_at += 1 << 46;
                    original.shift_in(*byte, 8, theirs_at).expect("a byte");
                    original.events.clear();
                }
            }
        }),
        timed_on(|_| {
            for (data, bytes) in &screen {
                ours.command_data(*data).expect("a data line");
                for byte in bytes {
                    ours_at += 1 << 46;
                    let event = ours.shift_in(*byte, 8, Time::from_raw(ours_at));
                    black_box(&event.expect("a byte"));
                }
            }
        }),
    );
    assert_eq!(
        (ours.ram(), ours.icons()),
        (original.ram(), original.icons())
    );
}

/// A text of 65,536 bytes: data and now and then a drive.
fn long_text() -> Vec<u8> {
    let mut text = NAMES.to_vec();
    text.extend(b"0 select 1\n0 byte 147\n0 byte 47\n0 byte 171\n0 byte 175\n0 dc 1\n");
    for number in 1.. {
        let call = match number % 64 {
            0 => "drive 0".to_string(),
            _ => format!("byte {}", number % 256),
        };
        let line = format!("{} {call}\n", 4 * number);
        if text.len() + line.len() > LONGEST {
            return text;
        }
        text.extend(line.bytes());
    }
    text
}

/// A session of 65,536 bytes. The original's is the driver's own program over it,
/// which works out the frame length of a drive on a copy.
fn sessions() {
    let text = long_text();
    let (mut listing, mut block) = (vec![0; LISTING_BYTES], [0; STATE_WORDS]);
    let (mut ram, mut icons) = (vec![0; 4096], vec![0; 256]);
    let mut ended = [0; 2];
    let theirs = Session::run(Controller::new(), &text, true);
    line(
        "session of 65,536 bytes",
        timed_on(|_| {
            black_box(&Session::run(Controller::new(), black_box(&text), true).listing);
        }),
        timed_on(|_| {
            (ram.fill(0), icons.fill(0));
            let lent = LentMut {
                ram: &mut ram,
                icons: &mut icons,
            };
            let number = session::run(black_box(&text), &mut block, lent, &mut listing, &mut ended);
            black_box((number, &listing));
        }),
    );
    assert_eq!(theirs.listing, listing[..ended[0] as usize]);
}

/// The rows of the controller.
pub fn rows(random: &mut Random) {
    let all: Vec<(Held, Scanned)> = scanned(random)
        .into_iter()
        .map(|at| (Held::of(&at.state), at))
        .collect();
    looks(&all);
    bytes();
    small_calls();
    whole_state(&all);
    screens();
    sessions();
}
