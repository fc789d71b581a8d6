//! The fixed list of sessions: for each a line of numbers, its text, and the
//! listing of the session program over the original.
use crate::{
    cases_controller::{sum_of, sum_of_words},
    random::Random,
    session::{Session, LONGEST},
    texts,
};
use original::ask::controller::Controller;
use std::io::Write;

/// A session: `crates/cases/src/session_cases.rt` says what the numbers are.
fn one(out: &mut Vec<u8>, text: &[u8]) {
    let mut session = Session::run(Controller::new(), text, true);
    let block = session.theirs.block();
    let state = &session.theirs.state;
    let numbers = [
        text.len() as u64,
        session.listing.len() as u64,
        session.refused.0,
        session.refused.1,
        sum_of_words(&block),
        sum_of(state.ram()),
        sum_of(state.icons()),
    ];
    let words = numbers.map(|number| number.to_string());
    out.extend(format!("{}\n", words.join(" ")).bytes());
    out.extend(text);
    out.extend(&session.listing);
}

/// The paper's session, the empty text, one of the most bytes, one of one more,
/// `count` of 200 lines and twice as many short ones, most of them damaged.
pub fn session(seed: u64, count: u64) -> bool {
    let mut random = Random::new(seed);
    let mut out = Vec::new();
    one(&mut out, texts::PAPER);
    one(&mut out, b"");
    one(&mut out, &texts::longest(&mut random));
    one(
        &mut out,
        &[&texts::PAPER[..], &vec![b'\n'; LONGEST]].concat()[..LONGEST + 1],
    );
    for _ in 0..count {
        one(&mut out, &texts::good(&mut random, 200, LONGEST));
    }
    for _ in 0..2 * count {
        let mut text = texts::good(&mut random, 40, LONGEST);
        texts::damage(&mut random, &mut text);
        one(&mut out, &text);
    }
    std::io::stdout().write_all(&out).is_ok()
}
