//! A chip as the words and bytes that our library takes. Nothing else knows
//! their order: comparisons, shrinking and refusals all go through here. A wide
//! number is two words, high first; a yes is 1, and is read from any but 0.
use crate::{
    chip::{Analog, Chip, Display, Power, Scan},
    ffi::{clock_words, parts},
};

#[derive(Clone, Copy, Debug, PartialEq, Eq)]
pub struct ChipWords {
    pub settings: [u8; 20],
    pub analog: [u8; 8],
    /// Of the scan: whether its clock runs, the clock's eight words, the rate,
    /// the two words of the segments.
    pub words: [u64; 13],
    /// Of the scan: its other fields in their order.
    pub bytes: [u8; 14],
    pub power: Power,
}

impl Display {
    pub fn bytes(&self) -> [u8; 20] {
        let [p0, p1, p2, p3, p4, p5, p6, p7] = self.palette;
        [
            self.start_line,
            u8::from(self.icon_enabled),
            u8::from(self.entire_on),
            u8::from(self.reverse),
            u8::from(self.segment_reverse),
            u8::from(self.common_reverse),
            self.initial_com,
            self.duty,
            self.inversion_lines,
            self.gray_mode,
            p0,
            p1,
            p2,
            p3,
            p4,
            p5,
            p6,
            p7,
            self.oscillator_control,
            self.oscillator_frequency,
        ]
    }
    fn of(bytes: &[u8; 20]) -> Self {
        let [start_line, icon, entire, reverse, segment, common, initial_com, duty, inversion_lines, gray_mode, palette @ .., oscillator_control, oscillator_frequency] =
            *bytes;
        Self {
            start_line,
            icon_enabled: icon != 0,
            entire_on: entire != 0,
            reverse: reverse != 0,
            segment_reverse: segment != 0,
            common_reverse: common != 0,
            initial_com,
            duty,
            inversion_lines,
            gray_mode,
            palette,
            oscillator_control,
            oscillator_frequency,
        }
    }
}

impl Analog {
    pub fn bytes(&self) -> [u8; 8] {
        [
            self.contrast,
            self.regulator,
            self.power_control,
            self.booster,
            self.bias,
            self.temperature_slope,
            self.contrast_trim,
            self.otp_control,
        ]
    }
    pub fn of(bytes: &[u8; 8]) -> Self {
        let [contrast, regulator, power_control, booster, bias, temperature_slope, contrast_trim, otp_control] =
            *bytes;
        Self {
            contrast,
            regulator,
            power_control,
            booster,
            bias,
            temperature_slope,
            contrast_trim,
            otp_control,
        }
    }
}

impl Scan {
    /// A clock that is stopped has words of 0.
    pub fn words(&self) -> [u64; 13] {
        let clock = self.clock.map_or([0; 8], |clock| clock_words(&clock));
        let mut words = [0; 13];
        words[0] = u64::from(self.clock.is_some());
        words[1..9].copy_from_slice(&clock);
        [words[9], words[10]] = [self.rate.0, self.rate.1];
        [words[11], words[12]] = self.segments;
        words
    }
    pub fn bytes(&self) -> [u8; 14] {
        [
            self.duty,
            u8::from(self.icon),
            self.initial_com,
            u8::from(self.common_reverse),
            self.start_line,
            self.pwm,
            self.frc_count,
            self.row,
            self.step,
            self.frc,
            self.inversion_lines,
            self.inversion_count,
            u8::from(self.inverted),
            u8::from(self.latched),
        ]
    }
    fn of(words: &[u64; 13], bytes: &[u8; 14]) -> Self {
        let [running, clock @ .., p, q, low, high] = *words;
        let [duty, icon, initial_com, common, start_line, pwm, frc_count, row, step, frc, inversion_lines, inversion_count, inverted, latched] =
            *bytes;
        Self {
            clock: (running != 0).then(|| parts(&clock)),
            rate: (p, q),
            duty,
            icon: icon != 0,
            initial_com,
            common_reverse: common != 0,
            start_line,
            pwm,
            frc_count,
            row,
            step,
            frc,
            inversion_lines,
            inversion_count,
            inverted: inverted != 0,
            segments: [low, high],
            latched: latched != 0,
        }
    }
}

/// The next N of some numbers, each as a smaller one, if it fits.
fn next<T: TryFrom<u128> + Copy + Default, const N: usize>(
    numbers: &mut impl Iterator<Item = u128>,
) -> Option<[T; N]> {
    let mut all = [T::default(); N];
    for one in &mut all {
        *one = T::try_from(numbers.next()?).ok()?;
    }
    Some(all)
}

impl ChipWords {
    pub fn of(chip: &Chip) -> Self {
        Self {
            settings: chip.display.bytes(),
            analog: chip.analog.bytes(),
            words: chip.scan.words(),
            bytes: chip.scan.bytes(),
            power: chip.power,
        }
    }
    pub fn chip(&self) -> Chip {
        Chip {
            display: Display::of(&self.settings),
            analog: Analog::of(&self.analog),
            power: self.power,
            scan: Scan::of(&self.words, &self.bytes),
        }
    }
    /// The scan that came back, which must stand in the one form that ours
    /// writes: 0 or 1 for no and yes, words of 0 for a stopped clock.
    pub fn scan(&self) -> Scan {
        let scan = Scan::of(&self.words, &self.bytes);
        assert_eq!(
            (scan.words(), scan.bytes()),
            (self.words, self.bytes),
            "a scan in another form"
        );
        scan
    }
    /// All of it as numbers, for shrinking.
    pub fn numbers(&self) -> Vec<u128> {
        let bytes = [&self.settings[..], &self.analog, &self.bytes].concat();
        let mut numbers: Vec<u128> = bytes.into_iter().map(u128::from).collect();
        numbers.extend(self.words.map(u128::from));
        let Power {
            display_on,
            power_save,
            oscillator_enabled,
            supply_millivolts,
            temperature_millicelsius,
            waiting,
        } = self.power;
        numbers.extend([display_on, oscillator_enabled, power_save, waiting].map(u128::from));
        numbers.extend([
            u128::from(supply_millivolts),
            u128::from(temperature_millicelsius as u32),
        ]);
        numbers
    }
    /// The chip of such numbers.
    pub fn of_numbers(numbers: &[u128]) -> Option<Self> {
        let mut numbers = numbers.iter().copied();
        let (settings, analog) = (next(&mut numbers)?, next(&mut numbers)?);
        let (bytes, words) = (next(&mut numbers)?, next(&mut numbers)?);
        let [display_on, oscillator_enabled, power_save, waiting] =
            next::<u8, 4>(&mut numbers)?.map(|mark| mark != 0);
        let [supply_millivolts] = next(&mut numbers)?;
        let [temperature] = next::<u32, 1>(&mut numbers)?;
        Some(Self {
            settings,
            analog,
            words,
            bytes,
            power: Power {
                display_on,
                power_save,
                oscillator_enabled,
                supply_millivolts,
                temperature_millicelsius: temperature as i32,
                waiting,
            },
        })
    }
}

impl Chip {
    pub fn numbers(&self) -> Vec<u128> {
        ChipWords::of(self).numbers()
    }
    pub fn of_numbers(numbers: &[u128]) -> Option<Self> {
        ChipWords::of_numbers(numbers).map(|words| words.chip())
    }
}
