//! The session program of ours against the one over the original: every byte of
//! the listing, the number and line of the refusal, every field of the state,
//! RAM and icons.
use crate::{
    block::{self, show, Block},
    random::Random,
    session::Session,
    shrink, texts, total, valid,
};
use nt7508::{
    words::{session, LentMut},
    LISTING_BYTES, STATE_WORDS,
};
use original::ask::{caught, controller::Controller};

/// What the bytes of a lent listing are before a session.
const OLD: u8 = 0x5a;

/// Memory that a session starts with.
#[derive(Clone)]
pub struct Memory {
    pub ram: Vec<u8>,
    pub icons: Vec<u8>,
}

impl Memory {
    pub fn zero() -> Self {
        Self {
            ram: vec![0; 4096],
            icons: vec![0; 256],
        }
    }
    /// Zeros mostly; any bytes; once in a while of another length.
    fn any(random: &mut Random) -> Self {
        let mut memory = Self::zero();
        if random.one_in(4) {
            let (ram, icons) = valid::memory(random);
            memory = Self { ram, icons };
        }
        match random.below(256) {
            0 => memory.ram.truncate(4095),
            1 => memory.icons.push(0),
            _ => (),
        }
        memory
    }
    fn whole(&self) -> bool {
        (self.ram.len(), self.icons.len()) == (4096, 256)
    }
}

/// A lent listing, used again and again: what a session wrote is made as before.
struct Listing(Vec<u8>);

/// What ours left.
struct Ours {
    block: Block,
    memory: Memory,
    listing: Vec<u8>,
    refused: (u64, u64),
}

impl Listing {
    fn new() -> Self {
        Self(vec![OLD; LISTING_BYTES])
    }
    fn untouched(&self) -> bool {
        self.0.iter().all(|byte| *byte == OLD)
    }
    fn run(&mut self, text: &[u8], memory: &Memory) -> Ours {
        let (mut block, mut ended) = ([u64::MAX; STATE_WORDS], [u64::MAX; 2]);
        let mut memory = memory.clone();
        let lent = LentMut {
            ram: &mut memory.ram,
            icons: &mut memory.icons,
        };
        let number = session::run(text, &mut block, lent, &mut self.0, &mut ended);
        let [written, line] = ended;
        let written = &mut self.0[..written as usize];
        let listing = written.to_vec();
        written.fill(OLD);
        Ours {
            block,
            memory,
            listing,
            refused: (number, line),
        }
    }
}

/// The original at power-on with such memory; of another length it stays zeros.
fn started(memory: &Memory) -> Controller {
    let fresh = Controller::new();
    match memory.whole() {
        true => block::state(&block::block(&fresh), &memory.ram, &memory.icons),
        false => fresh,
    }
}

/// What differs, if something does.
fn difference(theirs: &mut Session, ours: &Ours, lent: &Memory) -> Option<String> {
    if theirs.refused != ours.refused {
        let (wanted, refused) = (theirs.refused, ours.refused);
        return Some(format!("refused: original {wanted:?}, ours {refused:?}"));
    }
    if theirs.listing != ours.listing {
        let [wanted, listing] =
            [&theirs.listing, &ours.listing].map(|l| String::from_utf8_lossy(l));
        return Some(format!("listing: original\n{wanted}ours\n{listing}"));
    }
    let block = theirs.theirs.block();
    if block != ours.block {
        let (wanted, state) = (show(&block), show(&ours.block));
        return Some(format!("state: original {wanted}\n  ours {state}"));
    }
    let state = &theirs.theirs.state;
    let same = match lent.whole() {
        true => ours.memory.ram == state.ram() && ours.memory.icons == state.icons(),
        false => ours.memory.ram == lent.ram && ours.memory.icons == lent.icons,
    };
    (!same).then(|| "RAM or icons".to_string())
}

/// What a run of both sides came to, and what differs.
fn both(listing: &mut Listing, text: &[u8], memory: &Memory) -> (Option<Session>, Option<String>) {
    let mut held = None;
    let words = caught(|| {
        let ours = listing.run(text, memory);
        let mut theirs = Session::run(started(memory), text, memory.whole());
        let words = difference(&mut theirs, &ours, memory);
        held = Some(theirs);
        words
    });
    (
        held,
        words.unwrap_or_else(|words| Some(format!("panic: {words}"))),
    )
}

/// The difference again, by fewer lines and then by fewer bytes.
fn report(text: &[u8], memory: &Memory, words: &str) {
    let fails = |text: &[u8]| both(&mut Listing::new(), text, memory).1.is_some();
    let lines: Vec<Vec<u8>> = text
        .split_inclusive(|byte| *byte == b'\n')
        .map(<[u8]>::to_vec)
        .collect();
    let lines = shrink::list(lines, |lines| fails(&lines.concat()));
    let text = lines.concat();
    let text = match text.len() {
        0..200 => shrink::list(text, fails),
        _ => text,
    };
    let again = both(&mut Listing::new(), &text, memory).1;
    let (text, again) = (String::from_utf8_lossy(&text), again.unwrap_or_default());
    println!("DIFFERENCE in a session, smallest text {text:?}\n  {again}\n  first seen: {words}");
}

/// Whether the moments of a text that is not refused never fall.
fn never_falls(text: &[u8]) -> bool {
    let lines = text.split(|byte| *byte == b'\n').skip(1);
    let digits = lines.map(|line| line.iter().take_while(|byte| byte.is_ascii_digit()));
    let number = |number: u64, digit: &u8| 10 * number + u64::from(digit - b'0');
    let moments = digits.filter(|digits| digits.clone().next().is_some());
    moments.map(|digits| digits.fold(0, number)).is_sorted()
}

/// The text without the lines that update.
fn without_updates(text: &[u8]) -> Vec<u8> {
    let lines = text.split_inclusive(|byte| *byte == b'\n');
    let kept = lines.filter(|line| !line.ends_with(b" update 0\n"));
    kept.collect::<Vec<_>>().concat()
}

#[derive(Default)]
struct Tally {
    texts: u64,
    struck: u64,
    bytes: u64,
    lines: u64,
    driven: u64,
    refused: [u64; 10],
}

/// Compares `count` texts.
pub fn run_all(random: &mut Random, count: u64) -> bool {
    let (mut tally, mut listing) = (Tally::default(), Listing::new());
    for number in 0..count {
        let (text, memory) = (texts::text(random), Memory::any(random));
        let (session, words) = both(&mut listing, &text, &memory);
        if let Some(words) = words {
            report(&text, &memory, &words);
            return false;
        }
        let session = session.expect("a session that was compared");
        let kept = without_updates(&text);
        if session.refused == (0, 0) && kept != text && never_falls(&text) {
            let ours = listing.run(&kept, &memory);
            if ours.listing != session.listing || ours.refused != (0, 0) {
                let text = String::from_utf8_lossy(&text);
                println!("DIFFERENCE: a listing without its updates, text {text:?}");
                return false;
            }
            tally.struck += 1;
        }
        tally.texts += 1;
        tally.bytes += text.len() as u64;
        tally.lines += session.lines;
        tally.driven += session.driven;
        tally.refused[session.refused.0 as usize] += 1;
        if number % 4096 == 0 && !listing.untouched() {
            println!("DIFFERENCE: a session wrote behind its listing");
            return false;
        }
    }
    tally.print();
    listing.untouched()
}

impl Tally {
    fn print(&self) {
        let Tally {
            texts,
            bytes,
            lines,
            driven,
            struck,
            refused,
        } = self;
        println!("original = ours: session: {texts} inputs compared, texts of {bytes} bytes");
        println!("whole = struck: session: {struck} inputs compared, texts without their updates");
        total::add(texts + struck);
        let [whole, time, memory, .., line] = *refused;
        println!("among them {lines} lines taken, {driven} drives of a common, {whole} texts whole, {line} refused as 9, {time} as 1, {memory} as 2");
    }
}

/// The driver itself: what ours leaves otherwise must be found.
#[cfg(test)]
mod tests {
    use super::*;

    #[test]
    fn every_part_matters() {
        original::ask::quiet_panics();
        let text = b"us call value\n0 select 1\n0 byte 171\n0 byte 175\n5 drive 0\n6 drive 1\n";
        let memory = Memory::zero();
        let with = |change: fn(&mut Ours)| {
            let mut ours = Listing::new().run(text, &memory);
            change(&mut ours);
            let mut theirs = Session::run(started(&memory), text, true);
            difference(&mut theirs, &ours, &memory)
        };
        assert_eq!(with(|_| ()), None);
        let changes: [fn(&mut Ours); 6] = [
            |ours| ours.block[0] ^= 1,
            |ours| ours.memory.ram[4095] ^= 1,
            |ours| ours.memory.icons[255] ^= 1,
            |ours| ours.listing[40] ^= 1,
            |ours| ours.refused.0 = 1,
            |ours| ours.refused.1 += 1,
        ];
        assert!(changes.into_iter().all(|change| with(change).is_some()));
    }
    #[test]
    fn texts_are_of_all_kinds() {
        let mut random = Random::new(1);
        let mut refused = [0; 10];
        for _ in 0..2000 {
            let (text, memory) = (texts::text(&mut random), Memory::any(&mut random));
            let session = Session::run(started(&memory), &text, memory.whole());
            refused[session.refused.0 as usize] += 1;
        }
        assert!([0, 1, 2, 9].iter().all(|number| refused[*number] > 0));
    }
    #[test]
    fn only_updates_are_struck() {
        let text = b"us call value\n0 update 0\n1 drive 0\n2 update 1\n3 update 0";
        let kept = b"us call value\n1 drive 0\n2 update 1\n3 update 0";
        assert_eq!(without_updates(text), kept);
        assert!(never_falls(text) && !never_falls(b"us call value\n2 dc 0\n1 dc 0\n"));
    }
}
