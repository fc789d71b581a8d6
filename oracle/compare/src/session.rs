//! The session program over the original, by document 01's 'Session program': a
//! text in, a listing out, plainly written.
use crate::{
    call::{Call, Step, Theirs},
    side::END,
};
use original::ask::{clock::micros, controller::Controller};

pub const NAMES: &[u8] = b"us call value\n";
const LISTING: &[u8] = b"us common inverted v0 lit frame\n";
pub const LONGEST: usize = 65_536;

/// A word that names no common, and one that is no level.
const NO_COMMON: u64 = 129;
const ABSENT: u64 = 1 << 32;

/// Where a session ended: the original, the listing, and the number and line of
/// the refusal, or zeros.
pub struct Session {
    pub theirs: Theirs,
    pub listing: Vec<u8>,
    pub refused: (u64, u64),
    /// How many lines were taken, and how many of them were drives of a common.
    pub lines: u64,
    pub driven: u64,
}

/// What a line asks for.
enum Action {
    Byte(u8),
    /// The deadline call at the controller's own time, if that has come.
    Deadline,
    Call(Call),
}

/// A decimal without a leading zero.
fn decimal(field: &[u8]) -> Option<u64> {
    let digits = field.iter().all(u8::is_ascii_digit);
    let plain = field == b"0" || !field.starts_with(b"0");
    let text = std::str::from_utf8(field).ok()?;
    (digits && plain).then(|| text.parse().ok()).flatten()
}

/// A temperature: a minus stands for one below 0 only.
fn signed(field: &[u8]) -> Option<i32> {
    match field.strip_prefix(b"-") {
        Some(rest) => {
            let number = decimal(rest).filter(|number| *number != 0)?;
            i32::try_from(-i128::from(number)).ok()
        }
        None => decimal(field)?.try_into().ok(),
    }
}

/// A line without its newline: the moment in microseconds, and what it asks for.
fn line(text: &[u8]) -> Option<(u64, Action)> {
    let mut fields = text.split(|byte| *byte == b' ');
    let (us, word, value) = (fields.next()?, fields.next()?, fields.next()?);
    if fields.next().is_some() {
        return None;
    }
    let us = decimal(us)?;
    let number = || decimal(value);
    let flag = || number().filter(|number| *number < 2).map(|on| on == 1);
    let bare = |action| number().filter(|number| *number == 0).map(|_| action);
    let action = match word {
        b"byte" => Action::Byte(number()?.try_into().ok()?),
        b"dc" => Action::Call(Call::Data(flag()?)),
        b"select" => Action::Call(Call::Select(flag()?)),
        b"supply" => Action::Call(Call::Supply(number()?.try_into().ok()?)),
        b"temp" => Action::Call(Call::Temperature(signed(value)?)),
        b"deadline" => bare(Action::Deadline)?,
        b"update" => bare(Action::Call(Call::Update))?,
        b"drive" => bare(Action::Call(Call::Drive))?,
        _ => return None,
    };
    Some((us, action))
}

/// The lines of a text behind its names line; the last may lack its newline.
fn lines(text: &[u8]) -> impl Iterator<Item = &[u8]> {
    text.split_inclusive(|byte| *byte == b'\n')
}

/// A line of the listing, from the words of a drive and its frame length.
fn drive_line(us: u64, words: &[u64; 13]) -> String {
    let or_dash = |word: u64, none: u64| match word {
        _ if word == none => "-".to_string(),
        _ => word.to_string(),
    };
    let lit = words[1].count_ones() + words[2].count_ones();
    let common = or_dash(words[0], NO_COMMON);
    let frame = match words[0] {
        NO_COMMON => "-".to_string(),
        _ => words[12].to_string(),
    };
    let v0 = or_dash(words[7], ABSENT);
    format!("{us} {common} {} {v0} {lit} {frame}\n", words[3])
}

impl Session {
    /// The call of a line, or the number by which it is turned down. `memory` says
    /// whether RAM and icons that ours is lent have their lengths.
    fn line(&mut self, text: &[u8], memory: bool) -> Result<(), u64> {
        let (us, action) = text.strip_suffix(b"\n").and_then(line).ok_or(9u64)?;
        let now = micros(us);
        let reads = matches!(action, Action::Byte(_) | Action::Call(Call::Drive));
        match () {
            _ if reads && !memory => return Err(2),
            _ if now >= END => return Err(1),
            _ => (),
        }
        match action {
            Action::Byte(byte) => self.theirs.state.byte(byte, now).expect("a byte"),
            Action::Deadline => {
                let due = self.theirs.state.deadline().filter(|end| *end <= now);
                due.into_iter()
                    .for_each(|end| self.theirs.state.at_deadline(end));
            }
            Action::Call(call) => {
                let answer = self.theirs.ask(&Step { now, call });
                if call == Call::Drive {
                    self.listing.extend(drive_line(us, &answer.words).bytes());
                    self.driven += u64::from(answer.words[0] != NO_COMMON);
                }
            }
        }
        self.lines += 1;
        Ok(())
    }
    /// Runs a text on a controller.
    pub fn run(state: Controller, text: &[u8], memory: bool) -> Self {
        let mut session = Self {
            theirs: Theirs::new(state),
            listing: LISTING.to_vec(),
            refused: (0, 0),
            lines: 0,
            driven: 0,
        };
        let opens = text.len() <= LONGEST && text.starts_with(NAMES);
        session.refused = match opens {
            true => session.rest(&text[NAMES.len()..], memory),
            false => (9, 1),
        };
        if session.refused != (0, 0) {
            let (number, line) = session.refused;
            session
                .listing
                .extend(format!("refused {number} line {line}\n").bytes());
        }
        session
    }
    /// The lines from the second on.
    fn rest(&mut self, text: &[u8], memory: bool) -> (u64, u64) {
        for (number, text) in (2..).zip(lines(text)) {
            if let Err(why) = self.line(text, memory) {
                return (why, number);
            }
        }
        (0, 0)
    }
}

#[cfg(test)]
mod tests {
    use super::*;

    #[test]
    fn the_papers_listing() {
        let session = Session::run(Controller::new(), crate::texts::PAPER, true);
        let wanted = b"us common inverted v0 lit frame\n1000 8 0 4142731 128 1920\n";
        assert_eq!(session.listing, wanted);
    }
    #[test]
    fn decimals_have_one_form() {
        assert_eq!(decimal(b"0"), Some(0));
        assert_eq!(decimal(b"18446744073709551615"), Some(u64::MAX));
        for malformed in [
            &b""[..],
            b"00",
            b"01",
            b"+1",
            b"-0",
            b"1 ",
            b"18446744073709551616",
        ] {
            assert_eq!(decimal(malformed), None);
        }
        assert_eq!(signed(b"-2147483648"), Some(i32::MIN));
        for malformed in [
            &b"-0"[..],
            b"-",
            b"--1",
            b"2147483648",
            b"-2147483649",
            b"-01",
        ] {
            assert_eq!(signed(malformed), None);
        }
    }
}
