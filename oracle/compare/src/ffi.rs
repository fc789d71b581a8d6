//! The clock and the voltages of our proved library, by the types of the
//! original's answers.
pub use nt7508::words::{wide, words};
use nt7508::{words::voltage, CLOCK_WORDS, VOLTAGE_WORDS};
use original::ask::{clock::Parts, voltage::Question};

pub fn voltages(question: &Question, out: &mut [u64; VOLTAGE_WORDS]) -> u64 {
    voltage::voltages(
        &question.settings,
        (question.supply, question.temperature),
        (question.power_save, question.waiting),
        out,
    )
}

pub fn clock_words(parts: &Parts) -> [u64; CLOCK_WORDS] {
    let ([at_high, at_low], [whole_high, whole_low]) = (words(parts.at), words(parts.whole));
    [
        at_high,
        at_low,
        whole_high,
        whole_low,
        parts.remainder,
        parts.denominator,
        parts.fraction,
        parts.ordinal,
    ]
}

pub fn parts(words: &[u64; CLOCK_WORDS]) -> Parts {
    Parts {
        at: wide(words[0], words[1]),
        whole: wide(words[2], words[3]),
        remainder: words[4],
        denominator: words[5],
        fraction: words[6],
        ordinal: words[7],
    }
}
