//! Questions about voltage.rs at speed: one controller is kept, and only the
//! settings that differ from the question before are changed in it.
use super::controller::{Controller, Part};
use crate::devices::nt7508::LcdVoltages;

/// The names of the eight settings, in declaration order.
pub const SETTINGS: [&str; 8] = [
    "contrast",
    "regulator",
    "power_control",
    "booster",
    "bias",
    "temperature_slope",
    "contrast_trim",
    "otp_control",
];

/// All that the voltages depend on. `supplied` follows from the supply, as
/// `validate` asks.
#[derive(Clone, Copy, Debug, PartialEq, Eq)]
pub struct Question {
    pub settings: [u8; 8],
    pub supply: u16,
    pub temperature: i32,
    pub power_save: bool,
    pub waiting: bool,
}

pub struct Bench {
    controller: Controller,
    last: Question,
    settings: [Part; 8],
    supply: Part,
    supplied: Part,
    power_save: Part,
    ready: Part,
}

fn part(name: &str) -> Part {
    Controller::part(name).expect("a field of the controller")
}

impl Default for Bench {
    fn default() -> Self {
        Self::new()
    }
}

impl Bench {
    pub fn new() -> Self {
        let mut bench = Self {
            controller: Controller::new(),
            last: Question {
                settings: [0; 8],
                supply: 0,
                temperature: 0,
                power_save: false,
                waiting: false,
            },
            settings: SETTINGS.map(part),
            supply: part("supply_millivolts"),
            supplied: part("supplied"),
            power_save: part("power_save"),
            ready: part("ready"),
        };
        bench.put_all();
        bench
    }
    /// The original's `voltages` for this question.
    pub fn voltages(&mut self, question: &Question) -> LcdVoltages {
        if *question != self.last {
            self.change(question);
        }
        self.controller.voltages()
    }
    /// The controller that answers, to compare its image.
    pub fn controller(&self) -> &Controller {
        &self.controller
    }
    fn change(&mut self, question: &Question) {
        let before = self.last;
        self.last = *question;
        for index in 0..8 {
            if question.settings[index] != before.settings[index] {
                self.put_setting(index);
            }
        }
        if question.supply != before.supply {
            self.put_supply();
        }
        if (question.power_save, question.waiting) != (before.power_save, before.waiting) {
            self.put_marks();
        }
        self.controller.set_temperature(question.temperature);
    }
    fn put_all(&mut self) {
        (0..8).for_each(|index| self.put_setting(index));
        self.put_supply();
        self.put_marks();
        self.controller.set_temperature(self.last.temperature);
    }
    fn put_setting(&mut self, index: usize) {
        let image = [self.last.settings[index]];
        self.controller
            .set(&self.settings[index], &image)
            .expect("a byte");
    }
    fn put_supply(&mut self) {
        let supply = self.last.supply;
        self.controller
            .set(&self.supply, &supply.to_le_bytes())
            .expect("two bytes");
        self.controller
            .set(&self.supplied, &[u8::from(supply >= 1650)])
            .expect("a bool");
    }
    /// A wait is a ready time; which time does not matter to the voltages.
    fn put_marks(&mut self) {
        let mut ready = [0; 17];
        ready[0] = u8::from(self.last.waiting);
        let length = if self.last.waiting { 17 } else { 1 };
        self.controller
            .set(&self.ready, &ready[..length])
            .expect("an Option");
        let save = [u8::from(self.last.power_save)];
        self.controller
            .set(&self.power_save, &save)
            .expect("a bool");
    }
}
