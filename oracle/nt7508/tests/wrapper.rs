//! The wrapper as a user sees it, and the header beside it.
use nt7508::{
    run,
    words::{self, Lent, LentMut},
    Event, Nt7508, Refusal, Time, IMAGE_BYTES, LCD_WIDTH, LISTING_BYTES, STATE_WORDS, TEXT_BYTES,
};
use std::collections::{BTreeMap, BTreeSet};

/// 2^32 s.
const END: Time = Time::from_raw(1 << 96);

fn send(chip: &mut Nt7508, data: bool, bytes: &[u8], now: Time) -> Vec<Option<Event>> {
    chip.command_data(data).expect("a data line");
    let events = bytes.iter().map(|byte| chip.shift_in(*byte, 8, now));
    events.collect::<Result<_, _>>().expect("bytes")
}

/// A selected controller that shows RAM from row 0, at full drive.
fn shown() -> Nt7508 {
    let mut chip = Nt7508::new();
    chip.select(true).expect("a select");
    let commands = [
        0x44, 0x20, 0x48, 0x40, 0x93, 0x8e, 0xff, 0x8f, 0xff, 0x2f, 0xab, 0xaf,
    ];
    send(&mut chip, false, &commands, Time::ZERO);
    chip
}

const PAPER: &[u8] = b"us call value\n0 select 1\n0 byte 147\n0 byte 165\n0 byte 47\n0 byte 171\n\
    0 byte 175\n1000 drive 0\n";

#[test]
fn the_papers_session() {
    let mut listing = vec![0; LISTING_BYTES];
    let ended = run(PAPER, &mut listing);
    assert_eq!(ended.refused, None);
    let wanted = b"us common inverted v0 lit frame\n1000 8 0 4142731 128 1920\n";
    assert_eq!(&listing[..ended.written], wanted);
    let drive = ended.chip.drive(Time::from_micros(1000)).expect("a drive");
    assert_eq!((drive.common, drive.frame), (Some(8), 1920));
    assert_eq!(drive.voltages.levels[0], Some(4_142_731));
    assert_eq!(drive.segments, [u64::MAX; 2]);
}

#[test]
fn sessions_are_refused_by_line() {
    let mut listing = vec![0; LISTING_BYTES];
    let late = b"us call value\n0 select 1\n4294967296000000 drive 0\n";
    for (text, why, line) in [
        (&b""[..], Refusal::Line, 1),
        (&vec![b'\n'; TEXT_BYTES + 1], Refusal::Line, 1),
        (b"us call value\n00 select 1\n", Refusal::Line, 2),
        (late, Refusal::Time, 3),
    ] {
        let ended = run(text, &mut listing);
        assert_eq!(ended.refused, Some((why, line)));
        let wanted = format!("refused {} line {line}\n", why.number());
        assert!(listing[..ended.written].ends_with(wanted.as_bytes()));
    }
    let mut short = vec![7; LISTING_BYTES - 1];
    let ended = run(PAPER, &mut short);
    assert_eq!(ended.refused, Some((Refusal::Listing, 1)));
    assert_eq!((ended.chip, ended.written), (Nt7508::new(), 0));
    assert!(short.iter().all(|byte| *byte == 7));
}

#[test]
fn data_is_stored_and_shown() {
    let mut chip = shown();
    let at = Time::from_micros(5);
    let events = send(&mut chip, false, &[0xb1, 0x10, 0x02], at);
    assert_eq!(
        events[0],
        Some(Event::LcdControl {
            at,
            command: 0xb1,
            parameter: None
        })
    );
    let events = send(&mut chip, true, &[0x80, 0x80], at);
    assert_eq!(
        events[1],
        Some(Event::LcdWrite {
            at,
            page: 1,
            column_byte: 5,
            value: 0x80
        })
    );
    assert_eq!(chip.ram()[256 + 4..256 + 6], [0x80, 0x80]);
    let mut image = [0; IMAGE_BYTES];
    chip.render(&mut image).expect("an image");
    let lit: Vec<usize> = (0..IMAGE_BYTES)
        .filter(|pixel| image[*pixel] != 0)
        .collect();
    assert_eq!(
        (lit, image[LCD_WIDTH * 15 + 2]),
        (vec![LCD_WIDTH * 15 + 2], 255)
    );
    chip.lose_volatile().expect("a loss");
    assert_eq!((chip.ram()[256 + 4], chip.icons()[0]), (0, 0));
}

#[test]
fn a_parameter_gives_one_event() {
    let mut chip = shown();
    let events = send(&mut chip, false, &[0x81, 0x3f], Time::ZERO);
    assert_eq!(
        events,
        [
            None,
            Some(Event::LcdControl {
                at: Time::ZERO,
                command: 0x81,
                parameter: Some(0x3f)
            })
        ]
    );
}

#[test]
fn a_cold_rise_waits() {
    let mut chip = shown();
    chip.set_supply(0, Time::ZERO).expect("a fall");
    chip.set_supply(3000, Time::ZERO).expect("a rise");
    let end = chip.deadline().expect("a state").expect("a wait");
    assert_eq!(end, Time::from_micros(21));
    chip.at_deadline(Time::from_raw(end.raw() + 1))
        .expect("a call");
    assert_eq!(chip.deadline(), Ok(Some(end)));
    chip.at_deadline(end).expect("a call");
    assert_eq!(chip.deadline(), Ok(None));
}

#[test]
fn looking_changes_nothing() {
    let mut chip = shown();
    let now = Time::from_micros(123_456);
    let before = chip.drive(now).expect("a drive");
    assert!(chip.update(Time::from_micros(70_000)).expect("an update") > 0);
    assert_eq!(chip.drive(now), Ok(before));
    let levels = (0..=128).map(|common| before.common_microvolts(common));
    assert_eq!(
        levels
            .filter(|level| *level == before.voltages.levels[0])
            .count(),
        1
    );
    assert_eq!(before.common_microvolts(129), None);
    assert_eq!(before.segment_microvolts(128), None);
    assert_eq!(before.segment_microvolts(127), before.voltages.levels[3]);
}

#[test]
fn single_edges_are_a_byte() {
    let (mut one, mut eight) = (shown(), shown());
    for bit in (0..8).rev() {
        let edges = one.serial_effect_edges(true).expect("edges");
        assert_eq!(edges, 2 * (bit + 1));
        one.rising(0xa7 >> bit & 1 != 0, Time::ZERO).expect("a bit");
    }
    eight.shift_in(0xa7, 8, Time::ZERO).expect("a byte");
    assert_eq!(one, eight);
}

#[test]
fn a_setting_fits_its_band() {
    let mut chip = shown();
    chip.set_temperature(25_000).expect("a temperature");
    let (regulator, contrast) = chip
        .find_setting(6_000_000, 6_000_000)
        .expect("a state")
        .expect("a pair");
    send(
        &mut chip,
        false,
        &[0x20 + regulator, 0x81, contrast],
        Time::ZERO,
    );
    assert_eq!(chip.voltages().expect("voltages").target, 6_000_000);
    assert_eq!(chip.find_setting(1, 2), Ok(None));
}

#[test]
fn a_kept_state_goes_on() {
    let chip = shown();
    let now = Time::from_micros(9);
    let kept = Nt7508::restore(*chip.state(), *chip.ram(), *chip.icons(), now);
    assert_eq!(kept, Ok(chip));
}

/// What the library refuses, it refuses by number and leaves as it was.
#[test]
fn refusals_change_nothing() {
    let mut chip = shown();
    let before = chip.clone();
    assert_eq!(chip.rising(true, END), Err(Refusal::Time));
    assert_eq!(chip.shift_in(0, 9, Time::ZERO), Err(Refusal::Group));
    assert_eq!(chip.shift_in(2, 1, Time::ZERO), Err(Refusal::Group));
    assert_eq!(chip.set_supply(0, END), Err(Refusal::Time));
    assert_eq!(chip.drive(END), Err(Refusal::Time));
    assert_eq!(chip, before);
    let mut later = before.clone();
    later.update(Time::from_micros(1000)).expect("an update");
    let early = Nt7508::restore(*later.state(), *later.ram(), *later.icons(), Time::ZERO);
    assert_eq!(early, Err(Refusal::Restore));
    let other = Nt7508::restore(
        [u64::MAX; STATE_WORDS],
        *chip.ram(),
        *chip.icons(),
        Time::ZERO,
    );
    assert_eq!(other, Err(Refusal::Block));
}

/// Lengths: of the block, of memory and of an image.
#[test]
fn lengths_are_checked() {
    let chip = shown();
    let lent = Lent {
        ram: chip.ram(),
        icons: chip.icons(),
    };
    let mut image = vec![7; IMAGE_BYTES + 1];
    let number = |status: u64| Refusal::of(status);
    let status = words::controller::render(chip.state(), lent, &mut image);
    assert_eq!(number(status), Some(Refusal::Image));
    let short = Lent {
        ram: &chip.ram()[1..],
        ..lent
    };
    let status = words::controller::render(chip.state(), short, &mut image);
    assert_eq!(number(status), Some(Refusal::Memory));
    for length in [0, STATE_WORDS - 1, STATE_WORDS + 1] {
        let mut block = vec![0; length];
        assert_eq!(words::controller::new(&mut block), 20);
        let lent = LentMut {
            ram: &mut [],
            icons: &mut [],
        };
        assert_eq!(
            words::session::run(PAPER, &mut block, lent, &mut [], &mut [7; 2]),
            20
        );
        assert!(block.iter().all(|word| *word == 0));
    }
}

const HEADER: &str = include_str!("../../../include/nt7508.h");

/// The numbers that the header defines, by name.
fn defined() -> BTreeMap<&'static str, u64> {
    let lines = HEADER.lines();
    let numbers = lines.filter_map(|line| {
        let mut words = line.strip_prefix("#define NT7508_")?.split_whitespace();
        Some((words.next()?, words.next()?.parse().ok()?))
    });
    numbers.collect()
}

#[test]
fn the_headers_numbers_are_these() {
    let header = defined();
    let sizes = [
        ("STATE_WORDS", nt7508::STATE_WORDS),
        ("RAM_BYTES", nt7508::RAM_BYTES),
        ("ICON_BYTES", nt7508::ICON_BYTES),
        ("IMAGE_WIDTH", nt7508::LCD_WIDTH),
        ("IMAGE_HEIGHT", nt7508::LCD_HEIGHT),
        ("IMAGE_BYTES", nt7508::IMAGE_BYTES),
        ("TEXT_BYTES", nt7508::TEXT_BYTES),
        ("LISTING_BYTES", nt7508::LISTING_BYTES),
        ("EVENT_WORDS", nt7508::EVENT_WORDS),
        ("DRIVE_WORDS", nt7508::DRIVE_WORDS),
        ("VOLTAGE_WORDS", nt7508::VOLTAGE_WORDS),
        ("DEADLINE_WORDS", nt7508::DEADLINE_WORDS),
        ("FOUND_WORDS", nt7508::FOUND_WORDS),
        ("ENDED_WORDS", nt7508::ENDED_WORDS),
        ("CLOCK_WORDS", nt7508::CLOCK_WORDS),
        ("ANALOG_BYTES", nt7508::ANALOG_BYTES),
        ("DISPLAY_BYTES", nt7508::DISPLAY_BYTES),
        ("SCAN_WORDS", nt7508::SCAN_WORDS),
        ("SCAN_BYTES", nt7508::SCAN_BYTES),
    ];
    for (name, size) in sizes {
        assert_eq!(header.get(name), Some(&(size as u64)), "{name}");
    }
    let mut all: BTreeSet<&str> = header.keys().copied().collect();
    all.retain(|name| name.ends_with("_WORDS") || name.ends_with("_BYTES"));
    let named = sizes.map(|(name, _)| name);
    assert!(all.iter().all(|name| named.contains(name)), "{all:?}");
    let refusals: Vec<_> = header
        .iter()
        .filter(|(name, _)| name.starts_with("REFUSED_"))
        .collect();
    assert_eq!(refusals.len(), 11);
    for (name, number) in refusals {
        let why = Refusal::of(*number).expect("a refusal");
        assert_eq!(why.number(), *number);
        assert_eq!(
            name.to_lowercase(),
            format!("refused_{why:?}").to_lowercase()
        );
    }
}

/// The functions named in a text, each by the word before a parenthesis.
fn functions(text: &str) -> BTreeSet<String> {
    let calls = text.split('(').filter_map(|before| {
        let start = before.rfind(|c: char| !c.is_ascii_alphanumeric() && c != '_')?;
        let word = &before[start + 1..];
        (word.starts_with("nt7508_") && before[..=start].ends_with(' ')).then(|| word.to_string())
    });
    calls.collect()
}

#[test]
fn the_headers_functions_are_these() {
    let declared = [
        include_str!("../src/words/clock.rs"),
        include_str!("../src/words/controller.rs"),
        include_str!("../src/words/scan.rs"),
        include_str!("../src/words/session.rs"),
        include_str!("../src/words/voltage.rs"),
    ];
    let declared: BTreeSet<String> = declared.into_iter().flat_map(functions).collect();
    assert!(declared.len() > 30);
    assert_eq!(functions(HEADER), declared);
}
