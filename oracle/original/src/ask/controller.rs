//! Questions about nt7508.rs and scan.rs, and states put in and read out.
use crate::{
    devices::nt7508::{LcdDrive, LcdVoltages, Nt7508, LCD_HEIGHT, LCD_WIDTH},
    signals::Event,
    time::Time,
    Error,
};
use borsh::{BorshDeserialize, BorshSerialize, Malformed};

pub const PIXELS: usize = LCD_WIDTH * LCD_HEIGHT;

/// A part of the state, found once by name and used many times.
#[derive(Clone, Debug, PartialEq, Eq)]
pub struct Part(Vec<u8>);

/// A controller of the original with the events that it gave.
#[derive(Clone, Debug, PartialEq, Eq)]
pub struct Controller {
    chip: Nt7508,
    pub events: Vec<Event>,
}

impl Default for Controller {
    fn default() -> Self {
        Self::new()
    }
}

/// States in and out.
impl Controller {
    /// The power-on state.
    pub fn new() -> Self {
        Self {
            chip: Nt7508::new(),
            events: Vec::new(),
        }
    }
    /// The state of an image, valid or not. Only its form is judged.
    pub fn from_image(image: &[u8]) -> Result<Self, Malformed> {
        let chip = borsh::from_slice(image)?;
        Ok(Self {
            chip,
            events: Vec::new(),
        })
    }
    pub fn image(&self) -> Vec<u8> {
        borsh::to_vec(&self.chip)
    }
    /// Appends the image of all fields but RAM and icons, the first two.
    pub fn registers(&self, out: &mut Vec<u8>) {
        let known = |field: &u8| self.chip.get(&[*field], out).is_ok();
        (2..=u8::MAX).take_while(known).for_each(drop);
    }
    /// The names of the smallest parts, in declaration order. `scan.clock` is
    /// one of them; its six fields have names only while there is a clock.
    pub fn names() -> Vec<String> {
        let mut names = Vec::new();
        Nt7508::names("", &mut names);
        names
    }
    /// The part with a name like `contrast`, `scan.row` or `scan.clock.at`.
    pub fn part(name: &str) -> Option<Part> {
        Nt7508::path(name).map(Part)
    }
    pub fn get(&self, part: &Part) -> Result<Vec<u8>, Malformed> {
        let mut out = Vec::new();
        self.chip.get(&part.0, &mut out)?;
        Ok(out)
    }
    /// Replaces one part by its image, which must be used up.
    #[inline]
    pub fn set(&mut self, part: &Part, mut image: &[u8]) -> Result<(), Malformed> {
        self.chip.set(&part.0, &mut image)?;
        if image.is_empty() {
            Ok(())
        } else {
            Err(borsh::LONG)
        }
    }
    /// A part of up to 16 bytes as a number.
    pub fn number(&self, name: &str) -> Option<u128> {
        let bytes = self.get(&Self::part(name)?).ok()?;
        let mut wide = [0; 16];
        wide.get_mut(..bytes.len())?.copy_from_slice(&bytes);
        Some(u128::from_le_bytes(wide))
    }
    /// `set` by name, for places where speed does not matter.
    pub fn put(&mut self, name: &str, image: &[u8]) -> Result<(), Malformed> {
        self.set(&Self::part(name).ok_or(borsh::PART)?, image)
    }
}

/// The original's calls.
impl Controller {
    pub fn shift_in(&mut self, bits: u8, count: u8, now: u128) -> Result<(), Error> {
        self.chip
            .shift_in(bits, count, Time::from_raw(now), &mut self.events)
    }
    pub fn rising(&mut self, mosi: bool, now: u128) -> Result<(), Error> {
        self.chip
            .rising(mosi, Time::from_raw(now), &mut self.events)
    }
    /// Eight rising edges, high bit first.
    pub fn byte(&mut self, byte: u8, now: u128) -> Result<(), Error> {
        (0..8)
            .rev()
            .try_for_each(|bit| self.rising(byte >> bit & 1 != 0, now))
    }
    pub fn select(&mut self, selected: bool) {
        self.chip.select(selected);
    }
    pub fn command_data(&mut self, data: bool) {
        self.chip.command_data(data);
    }
    pub fn set_supply(&mut self, rail: u16, now: u128) -> Result<(), Error> {
        self.chip.set_supply(rail, Time::from_raw(now))
    }
    pub fn set_temperature(&mut self, millicelsius: i32) {
        self.chip.set_temperature(millicelsius);
    }
    pub fn lose_volatile(&mut self) {
        self.chip.lose_volatile();
    }
    pub fn at_deadline(&mut self, now: u128) {
        self.chip.at_deadline(Time::from_raw(now));
    }
    pub fn deadline(&self) -> Option<u128> {
        self.chip.deadline().map(Time::raw)
    }
    pub fn serial_effect_edges(&self, clock_high: bool) -> u8 {
        self.chip.serial_effect_edges(clock_high)
    }
    pub fn drive(&self, now: u128) -> Result<LcdDrive, Error> {
        self.chip.drive(Time::from_raw(now))
    }
    pub fn common_microvolts(&self, now: u128, common: u8) -> Result<Option<u32>, Error> {
        self.drive(now).map(|drive| drive.common_microvolts(common))
    }
    pub fn segment_microvolts(&self, now: u128, segment: u8) -> Result<Option<u32>, Error> {
        self.drive(now)
            .map(|drive| drive.segment_microvolts(segment))
    }
    pub fn render(&self, pixels: &mut [u8; PIXELS]) {
        self.chip.render(pixels);
    }
    #[inline]
    pub fn voltages(&self) -> LcdVoltages {
        self.chip.voltages()
    }
    pub fn validate(&self, now: u128) -> Result<(), Error> {
        self.chip.validate(Time::from_raw(now))
    }
    pub fn ram(&self) -> &[u8; 4096] {
        self.chip.ram()
    }
    pub fn icons(&self) -> &[u8; 256] {
        self.chip.icons()
    }
}

/// The scan as counted to a moment, which the original keeps to itself.
impl Controller {
    /// This controller with its scan as `project_scan(now)` gives it.
    ///
    /// `project_scan` is private. A supply that falls keeps what it gives, all
    /// but the clock; an E3 byte keeps its clock. Both are played on copies.
    pub fn counted(&self, now: u128) -> Result<Self, Error> {
        let mut out = self.clone();
        let clock = self.counted_clock(now)?;
        out.copy_part("scan", &self.fallen(now)?);
        out.put_known("scan.clock", &clock);
        Ok(out)
    }
    /// A copy whose supply fell at `now`: its scan is the counted one without the
    /// clock. 1 mV, since 0 would mark it cold.
    pub fn fallen(&self, now: u128) -> Result<Self, Error> {
        let mut copy = self.clone();
        copy.put_known("supplied", &[1]);
        copy.set_supply(1, now)?;
        Ok(copy)
    }
    /// The image of the clock after an E3 at `now`, in a copy that is made to
    /// take the byte and to keep its clock running. Oscillator control bit 1
    /// stays, since the rate depends on it.
    fn counted_clock(&self, now: u128) -> Result<Vec<u8>, Error> {
        let clock = Self::part("scan.clock").expect("scan has a clock");
        let before = self.get(&clock).expect("known part");
        if before == [0] {
            return Ok(before);
        }
        let control = self.number("oscillator_control").expect("known part") as u8 & 2;
        let mut copy = self.clone();
        for (name, image) in [
            ("supplied", 1),
            ("selected", 1),
            ("data", 0),
            ("pending", 0),
            ("ready", 0),
            ("oscillator_enabled", 1),
            ("power_save", 0),
            ("oscillator_control", control),
            ("bits", 7),
            ("shift", 0xe3 >> 1),
        ] {
            copy.put_known(name, &[image]);
        }
        copy.rising(true, now)?;
        Ok(copy.get(&clock).expect("known part"))
    }
    fn copy_part(&mut self, name: &str, from: &Self) {
        let part = Self::part(name).expect("known part");
        self.put_known(name, &from.get(&part).expect("known part"));
    }
    fn put_known(&mut self, name: &str, image: &[u8]) {
        self.put(name, image).expect("known part");
    }
}
