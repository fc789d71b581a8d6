//! The scan, the drive and the image of the original against document 01's
//! rules, one quantum at a time. The states are reached by calls, with
//! settings changed on the way, so that all four kinds of piece come up. Ours is
//! asked in `compare_scan.rs`.
use crate::{
    paper_scan::{counted, drive, held, render},
    random::Random,
    state::{random_steps, reached_from, show, Step},
};
use original::ask::{caught, controller::Controller, controller::PIXELS};

/// What differs between the original and the rules at a moment, if anything. A
/// panic of either is a difference.
fn difference(state: &Controller, now: u128) -> Option<String> {
    caught(|| compare(state, now)).unwrap_or_else(|words| Some(format!("panic: {words}")))
}

fn compare(state: &Controller, now: u128) -> Option<String> {
    let answer = caught(|| state.counted(now).map(|state| held(&state)));
    let paper = counted(state, now).scan;
    if answer != Ok(Ok(paper)) {
        return Some(format!("scan: original {answer:?}\n  paper {paper:?}"));
    }
    let answer = caught(|| state.drive(now));
    let paper = drive(state, now);
    if answer != Ok(Ok(paper)) {
        return Some(format!("drive: original {answer:?}\n  paper {paper:?}"));
    }
    let mut pixels = [0; PIXELS];
    let answer = caught(|| state.render(&mut pixels));
    (answer.is_err() || pixels[..] != render(state)[..]).then(|| "image".to_string())
}

/// Words for the state and moment that the steps lead to.
fn report(steps: &[Step], state: &Controller, now: u128, words: &str) {
    println!("DIFFERENCE in {words}");
    println!(
        "  smallest found: after {steps:?}\n  state [{}] now {now}",
        show(state)
    );
}

/// The steps that still lead to a difference, and the report of it.
fn shrink(steps: Vec<Step>, now: u128) {
    let fails = |steps: &[Step]| difference(&reached_from(steps), now).is_some();
    let steps = crate::shrink::list(steps, fails);
    let state = reached_from(&steps);
    let words = difference(&state, now).unwrap_or_default();
    report(&steps, &state, now, &words);
}

/// Compares `count` states with the rules. True if nothing differs.
pub fn run(random: &mut Random, count: u64) -> bool {
    let (mut moved, mut compared, mut most) = (0u64, 0u64, 0);
    for _ in 0..count {
        let start = random.pick(&[0, 1 << 64, (1 << 96) - (1 << 70)]);
        let length = 4 + random.below(40);
        // At most about half a second between calls, or the rules, one quantum
        // at a time, take too long.
        let mut steps = random_steps(random, start, length, &[48, 52, 56, 60]);
        crate::state::starting(&mut steps, random);
        let state = reached_from(&steps);
        let now = steps.last().map_or(start, |step| step.now) + random.spread(1 << 61);
        let now = now.min((1 << 96) - 1);
        if difference(&state, now).is_some() {
            shrink(steps, now);
            return false;
        }
        compared += 1;
        let counted = counted(&state, now);
        moved += u64::from(counted.quanta != 0);
        most = most.max(counted.pieces);
    }
    for what in ["scan", "drive", "image"] {
        println!(
            "original = paper: {what}: {compared} inputs compared ({moved} with a moved scan)"
        );
    }
    crate::total::add(3 * compared);
    println!("the most pieces that the piece rule gave: {most}");
    most <= 4
}
