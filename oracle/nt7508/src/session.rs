//! The session program: a text of calls in, a listing of drives out.
use crate::{
    words::{session, LentMut},
    Nt7508, Refusal, ENDED_WORDS, ICON_BYTES, RAM_BYTES, STATE_WORDS,
};

/// Where a session ended.
#[derive(Clone, Debug, PartialEq, Eq)]
pub struct Ended {
    /// The controller as the last line that was not refused left it.
    pub chip: Nt7508,
    /// How many bytes of the listing were written.
    pub written: usize,
    /// The refusal that stopped it, and its line.
    pub refused: Option<(Refusal, u64)>,
}

/// Runs a text from power-on, memory 0, and prints its listing. A listing of fewer
/// than [`LISTING_BYTES`](crate::LISTING_BYTES) is refused, and left as it was.
pub fn run(text: &[u8], listing: &mut [u8]) -> Ended {
    let (mut ram, mut icons) = ([0; RAM_BYTES], [0; ICON_BYTES]);
    let (mut state, mut ended) = ([0; STATE_WORDS], [0; ENDED_WORDS]);
    let lent = LentMut {
        ram: &mut ram,
        icons: &mut icons,
    };
    let status = session::run(text, &mut state, lent, listing, &mut ended);
    let [written, line] = ended;
    Ended {
        chip: Nt7508::of_parts(state, ram, icons),
        written: written as usize,
        refused: Refusal::of(status).map(|why| (why, line)),
    }
}
