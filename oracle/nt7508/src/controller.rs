//! The controller with its memory.
use crate::{
    parts::{Event, LcdDrive, LcdVoltages, Refusal, Time},
    words::{controller, Lent, LentMut},
    DEADLINE_WORDS, DRIVE_WORDS, EVENT_WORDS, FOUND_WORDS, ICON_BYTES, IMAGE_BYTES, RAM_BYTES,
    STATE_WORDS, VOLTAGE_WORDS,
};

/// A controller with its RAM and icons. A call that is refused leaves it as it
/// was.
#[derive(Clone, Debug, PartialEq, Eq)]
pub struct Nt7508 {
    state: [u64; STATE_WORDS],
    ram: [u8; RAM_BYTES],
    icons: [u8; ICON_BYTES],
}

impl Default for Nt7508 {
    fn default() -> Self {
        Self::new()
    }
}

impl Nt7508 {
    /// The controller at power-on, its memory 0.
    pub fn new() -> Self {
        let mut state = [0; STATE_WORDS];
        controller::new(&mut state);
        Self {
            state,
            ram: [0; RAM_BYTES],
            icons: [0; ICON_BYTES],
        }
    }
    /// A controller that was kept elsewhere, as [`Self::state`], [`Self::ram`] and
    /// [`Self::icons`] gave it, if it may go on at a moment.
    pub fn restore(
        state: [u64; STATE_WORDS],
        ram: [u8; RAM_BYTES],
        icons: [u8; ICON_BYTES],
        now: Time,
    ) -> Result<Self, Refusal> {
        let mut kept = Self { state, ram, icons };
        let lent = Lent {
            ram: &kept.ram,
            icons: &kept.icons,
        };
        let status = controller::restore(&mut kept.state, now.raw(), lent);
        Refusal::unless(status, kept)
    }
    pub(crate) fn of_parts(
        state: [u64; STATE_WORDS],
        ram: [u8; RAM_BYTES],
        icons: [u8; ICON_BYTES],
    ) -> Self {
        Self { state, ram, icons }
    }
    /// The words of the state, to keep elsewhere.
    pub fn state(&self) -> &[u64; STATE_WORDS] {
        &self.state
    }
    /// RAM: 16 pages of 256 bytes.
    pub fn ram(&self) -> &[u8; RAM_BYTES] {
        &self.ram
    }
    /// The icons.
    pub fn icons(&self) -> &[u8; ICON_BYTES] {
        &self.icons
    }
    fn lent(&self) -> Lent<'_> {
        Lent {
            ram: &self.ram,
            icons: &self.icons,
        }
    }
    /// The state, and memory that a call may write.
    #[inline]
    fn parts(&mut self) -> (&mut [u64], LentMut<'_>) {
        let lent = LentMut {
            ram: &mut self.ram,
            icons: &mut self.icons,
        };
        (&mut self.state, lent)
    }

    /// One rising edge of the serial clock, and what the byte did that it ended.
    pub fn rising(&mut self, bit: bool, now: Time) -> Result<Option<Event>, Refusal> {
        let mut event = [0; EVENT_WORDS];
        let (state, lent) = self.parts();
        let status = controller::rising(state, bit, now.raw(), lent, &mut event);
        Refusal::unless(status, Event::of(&event))
    }
    /// Up to eight rising edges at one moment, the oldest bit the highest of the
    /// low `count`; a whole byte is `(byte, 8)`.
    #[inline]
    pub fn shift_in(&mut self, bits: u8, count: u8, now: Time) -> Result<Option<Event>, Refusal> {
        let mut event = [0; EVENT_WORDS];
        let (state, lent) = self.parts();
        let status = controller::shift_in(state, (bits, count), now.raw(), lent, &mut event);
        Refusal::unless(status, Event::of(&event))
    }
    /// Chip select. A change drops the bits under way.
    #[inline]
    pub fn select(&mut self, selected: bool) -> Result<(), Refusal> {
        Refusal::unless(controller::select(&mut self.state, selected), ())
    }
    /// The data line: true for data, false for commands.
    #[inline]
    pub fn command_data(&mut self, data: bool) -> Result<(), Refusal> {
        Refusal::unless(controller::command_data(&mut self.state, data), ())
    }
    /// The supply from a moment on.
    pub fn set_supply(&mut self, millivolts: u16, now: Time) -> Result<(), Refusal> {
        let status = controller::set_supply(&mut self.state, millivolts, now.raw());
        Refusal::unless(status, ())
    }
    /// The temperature.
    pub fn set_temperature(&mut self, millicelsius: i32) -> Result<(), Refusal> {
        let status = controller::set_temperature(&mut self.state, millicelsius);
        Refusal::unless(status, ())
    }
    /// A loss of memory: RAM and icons become 0, and the next rise is a cold one.
    pub fn lose_volatile(&mut self) -> Result<(), Refusal> {
        let (state, lent) = self.parts();
        Refusal::unless(controller::lose_volatile(state, lent), ())
    }
    /// The end of the start-up wait, while it lasts.
    pub fn deadline(&self) -> Result<Option<Time>, Refusal> {
        let mut out = [0; DEADLINE_WORDS];
        let status = controller::deadline(&self.state, &mut out);
        let [waits, seconds, fraction] = out;
        Refusal::unless(status, (waits != 0).then(|| Time::of(seconds, fraction)))
    }
    /// Ends the wait if the moment is exactly its end.
    pub fn at_deadline(&mut self, now: Time) -> Result<(), Refusal> {
        let status = controller::at_deadline(&mut self.state, now.raw());
        Refusal::unless(status, ())
    }
    /// Keeps the scan as counted to a moment, and says in how many pieces. No
    /// later answer changes by it.
    pub fn update(&mut self, now: Time) -> Result<u8, Refusal> {
        let mut pieces = 0;
        let status = controller::update(&mut self.state, now.raw(), &mut pieces);
        Refusal::unless(status, pieces)
    }
    /// What the electrodes get at a moment.
    pub fn drive(&self, now: Time) -> Result<LcdDrive, Refusal> {
        let (mut out, mut frame) = ([0; DRIVE_WORDS], 0);
        let status = controller::drive(&self.state, now.raw(), self.lent(), &mut out, &mut frame);
        Refusal::unless(status, LcdDrive::of(out, frame))
    }
    /// The gray image: pixel (x, y) at `LCD_WIDTH * y + x`, 0 (off) to 255.
    pub fn render(&self, pixels: &mut [u8; IMAGE_BYTES]) -> Result<(), Refusal> {
        let status = controller::render(&self.state, self.lent(), pixels);
        Refusal::unless(status, ())
    }
    /// Target, pump and V0 to V4.
    pub fn voltages(&self) -> Result<LcdVoltages, Refusal> {
        let mut out = [0; VOLTAGE_WORDS];
        let status = controller::voltages(&self.state, &mut out);
        Refusal::unless(status, LcdVoltages::of(&out))
    }
    /// Edges of the serial clock until the byte completes, from its level.
    pub fn serial_effect_edges(&self, clock_high: bool) -> Result<u8, Refusal> {
        let mut out = 0;
        let status = controller::serial_effect_edges(&self.state, clock_high, &mut out);
        Refusal::unless(status, out)
    }
    /// Some regulator and contrast whose target is from `low` to `high`
    /// microvolts, if any pair's is.
    pub fn find_setting(&self, low: u32, high: u32) -> Result<Option<(u8, u8)>, Refusal> {
        let mut out = [0; FOUND_WORDS];
        let status = controller::find_setting(&self.state, (low, high), &mut out);
        let [found, regulator, contrast] = out;
        let pair = (found != 0).then_some((regulator as u8, contrast as u8));
        Refusal::unless(status, pair)
    }
}
