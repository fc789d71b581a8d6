//! What the scan layer reads of a controller: its fields under the original's
//! names, in the groups of the controller's state, and the way from and to the
//! original's states by their images. `chip_words.rs` has the form in which our
//! library takes it.
use crate::side::ClockState;
use original::ask::{clock::Parts, controller::Controller};

#[derive(Clone, Copy, Debug, PartialEq, Eq)]
pub struct Chip {
    pub display: Display,
    pub analog: Analog,
    pub power: Power,
    pub scan: Scan,
}

/// The settings that the scan and the image read.
#[derive(Clone, Copy, Debug, PartialEq, Eq)]
pub struct Display {
    pub start_line: u8,
    pub icon_enabled: bool,
    pub entire_on: bool,
    pub reverse: bool,
    pub segment_reverse: bool,
    pub common_reverse: bool,
    pub initial_com: u8,
    pub duty: u8,
    pub inversion_lines: u8,
    pub gray_mode: u8,
    pub palette: [u8; 8],
    pub oscillator_control: u8,
    pub oscillator_frequency: u8,
}

/// The settings that the voltages read.
#[derive(Clone, Copy, Debug, PartialEq, Eq)]
pub struct Analog {
    pub contrast: u8,
    pub regulator: u8,
    pub power_control: u8,
    pub booster: u8,
    pub bias: u8,
    pub temperature_slope: u8,
    pub contrast_trim: u8,
    pub otp_control: u8,
}

/// What decides whether the scan runs and the glass is driven.
#[derive(Clone, Copy, Debug, PartialEq, Eq)]
pub struct Power {
    pub display_on: bool,
    pub power_save: bool,
    pub oscillator_enabled: bool,
    pub supply_millivolts: u16,
    pub temperature_millicelsius: i32,
    /// Whether `ready` holds a time.
    pub waiting: bool,
}

#[derive(Clone, Copy, Debug, PartialEq, Eq)]
pub struct Scan {
    pub clock: Option<Parts>,
    pub rate: (u64, u64),
    pub duty: u8,
    pub icon: bool,
    pub initial_com: u8,
    pub common_reverse: bool,
    pub start_line: u8,
    pub pwm: u8,
    pub frc_count: u8,
    pub row: u8,
    pub step: u8,
    pub frc: u8,
    pub inversion_lines: u8,
    pub inversion_count: u8,
    pub inverted: bool,
    pub segments: [u64; 2],
    pub latched: bool,
}

impl Display {
    pub fn pwm(&self) -> u8 {
        [9, 9, 12, 15][usize::from(self.gray_mode % 4)]
    }
    pub fn frc_count(&self) -> u8 {
        4 - self.gray_mode / 4
    }
}

impl Power {
    /// Whether the oscillator and power save let the scan run.
    pub fn running(&self) -> bool {
        self.oscillator_enabled && !self.power_save
    }
    /// Document 01's driven.
    pub fn driven(&self) -> bool {
        self.supply_millivolts >= 2400 && !self.waiting && self.display_on && self.running()
    }
}

impl Scan {
    pub fn rows(&self) -> u8 {
        self.duty + u8::from(self.icon)
    }
    /// The clock as document 01 sees it, with the rate of the scan.
    pub fn clock_state(&self) -> Option<ClockState> {
        self.clock.map(|clock| ClockState {
            at: clock.at,
            p: self.rate.0,
            q: self.rate.1,
            fraction: clock.fraction,
            ordinal: clock.ordinal,
        })
    }
    /// Puts in a clock and its rate.
    pub fn put_clock(&mut self, clock: ClockState) {
        self.clock = Some(clock.parts());
        self.rate = (clock.p, clock.q);
    }
}

/// The image of a state, read from its start.
struct Reader<'a>(&'a [u8]);

impl Reader<'_> {
    fn take<const N: usize>(&mut self) -> [u8; N] {
        let (head, rest) = self.0.split_at(N);
        self.0 = rest;
        head.try_into().expect("N bytes")
    }
    fn byte(&mut self) -> u8 {
        self.take::<1>()[0]
    }
    fn mark(&mut self) -> bool {
        self.byte() != 0
    }
    fn word(&mut self) -> u64 {
        u64::from_le_bytes(self.take())
    }
    fn wide(&mut self) -> u128 {
        u128::from_le_bytes(self.take())
    }
    /// Passes over an Option of N bytes; whether it holds something.
    fn option<const N: usize>(&mut self) -> bool {
        let some = self.mark();
        if some {
            self.take::<N>();
        }
        some
    }
    fn clock(&mut self) -> Option<Parts> {
        self.mark().then(|| Parts {
            at: self.wide(),
            whole: self.wide(),
            remainder: self.word(),
            denominator: self.word(),
            fraction: self.word(),
            ordinal: self.word(),
        })
    }
    /// The fields in declaration order, which is that of the image.
    fn scan(&mut self) -> Scan {
        Scan {
            clock: self.clock(),
            rate: (self.word(), self.word()),
            duty: self.byte(),
            icon: self.mark(),
            initial_com: self.byte(),
            common_reverse: self.mark(),
            start_line: self.byte(),
            pwm: self.byte(),
            frc_count: self.byte(),
            row: self.byte(),
            step: self.byte(),
            frc: self.byte(),
            inversion_lines: self.byte(),
            inversion_count: self.byte(),
            inverted: self.mark(),
            segments: [self.word(), self.word()],
            latched: self.mark(),
        }
    }
}

/// The scan of a state.
pub fn scan_of(state: &Controller) -> Scan {
    let part = Controller::part("scan").expect("a field");
    Reader(&state.get(&part).expect("a field")).scan()
}

/// An image, written from its start.
struct Writer(Vec<u8>);

impl Writer {
    fn mark(&mut self, mark: bool) {
        self.0.push(u8::from(mark));
    }
    fn words(&mut self, words: &[u64]) {
        words
            .iter()
            .for_each(|word| self.0.extend(word.to_le_bytes()));
    }
    fn scan(&mut self, scan: &Scan) {
        self.mark(scan.clock.is_some());
        if let Some(clock) = scan.clock {
            self.0.extend(clock.at.to_le_bytes());
            self.0.extend(clock.whole.to_le_bytes());
            self.words(&[clock.remainder, clock.denominator]);
            self.words(&[clock.fraction, clock.ordinal]);
        }
        self.words(&[scan.rate.0, scan.rate.1]);
        self.0.extend([
            scan.duty,
            u8::from(scan.icon),
            scan.initial_com,
            u8::from(scan.common_reverse),
            scan.start_line,
            scan.pwm,
            scan.frc_count,
            scan.row,
            scan.step,
            scan.frc,
            scan.inversion_lines,
            scan.inversion_count,
            u8::from(scan.inverted),
        ]);
        self.words(&scan.segments);
        self.mark(scan.latched);
    }
}

impl Chip {
    /// The fields are read in the order of the image, which is that of their
    /// declaration in the original.
    pub fn of(state: &Controller) -> Self {
        let image = state.image();
        let mut image = Reader(&image[4096 + 256..]);
        image.take::<4>(); // selected, data, shift, bits
        image.option::<1>(); // pending
        image.take::<3>(); // page, column_byte
        let (start_line, icon_enabled) = (image.byte(), image.mark());
        let display_on = image.mark();
        let [entire_on, reverse, segment_reverse, common_reverse] =
            image.take().map(|mark: u8| mark != 0);
        let power_save = image.mark();
        let contrast = image.byte();
        image.option::<2>(); // saved_column
        let [initial_com, duty, inversion_lines] = image.take();
        let [regulator, power_control, booster, bias] = image.take();
        let gray_mode = image.byte();
        let palette = image.take();
        let temperature_slope = image.byte();
        let [oscillator_control, oscillator_frequency] = image.take();
        let [contrast_trim, otp_control] = image.take();
        let oscillator_enabled = image.mark();
        let scan = image.scan();
        image.byte(); // supplied
        let supply_millivolts = u16::from_le_bytes(image.take());
        let temperature_millicelsius = i32::from_le_bytes(image.take());
        image.byte(); // cold
        let waiting = image.option::<16>();
        Self {
            display: Display {
                start_line,
                icon_enabled,
                entire_on,
                reverse,
                segment_reverse,
                common_reverse,
                initial_com,
                duty,
                inversion_lines,
                gray_mode,
                palette,
                oscillator_control,
                oscillator_frequency,
            },
            analog: Analog {
                contrast,
                regulator,
                power_control,
                booster,
                bias,
                temperature_slope,
                contrast_trim,
                otp_control,
            },
            power: Power {
                display_on,
                power_save,
                oscillator_enabled,
                supply_millivolts,
                temperature_millicelsius,
                waiting,
            },
            scan,
        }
    }
    /// A selected controller in this state, with this memory.
    pub fn state(&self, ram: &[u8], icons: &[u8]) -> Controller {
        let Self {
            display,
            analog,
            power,
            scan,
        } = self;
        let mut image = Writer(Vec::with_capacity(4600));
        image.0.extend(ram);
        image.0.extend(icons);
        // selected, data, shift, bits, pending, page, column_byte
        image.0.extend([1, 0, 0, 0, 0, 0, 0, 0]);
        image.0.push(display.start_line);
        image.mark(display.icon_enabled);
        image.mark(power.display_on);
        image.mark(display.entire_on);
        image.mark(display.reverse);
        image.mark(display.segment_reverse);
        image.mark(display.common_reverse);
        image.mark(power.power_save);
        image.0.extend([analog.contrast, 0]); // and saved_column
        image.0.extend([
            display.initial_com,
            display.duty,
            display.inversion_lines,
            analog.regulator,
            analog.power_control,
            analog.booster,
            analog.bias,
            display.gray_mode,
        ]);
        image.0.extend(display.palette);
        image.0.extend([
            analog.temperature_slope,
            display.oscillator_control,
            display.oscillator_frequency,
            analog.contrast_trim,
            analog.otp_control,
        ]);
        image.mark(power.oscillator_enabled);
        image.scan(scan);
        image.mark(power.supply_millivolts >= 1650); // supplied
        image.0.extend(power.supply_millivolts.to_le_bytes());
        image.0.extend(power.temperature_millicelsius.to_le_bytes());
        image.mark(false); // cold
        image.mark(power.waiting);
        if power.waiting {
            image.0.extend([0; 16]);
        }
        Controller::from_image(&image.0).expect("the image of a state")
    }
}
