//! Damaged states that the original's `validate` accepts, run for panics and
//! errors, each shown by a small state and a short list of calls.
use crate::{
    random::Random,
    shrink,
    state::{damage, perform, random_steps, reached, show, Step, GAPS},
};
use original::ask::{caught, controller::Controller};
use std::collections::BTreeMap;

/// The words of the first panic or error that the steps lead to.
fn trouble(controller: &Controller, steps: &[Step]) -> Option<String> {
    let run = || {
        let mut controller = controller.clone();
        steps
            .iter()
            .try_for_each(|step| perform(&mut controller, step))
    };
    match caught(run) {
        Ok(Ok(())) => None,
        Ok(Err(error)) => Some(format!("error {error}")),
        Err(panic) => Some(format!("panic {panic}")),
    }
}

/// The same trouble from fewer calls and a state nearer to power-on.
fn smaller(controller: Controller, now: u128, steps: Vec<Step>, words: &str) -> String {
    let same = |state: &Controller, steps: &[Step]| trouble(state, steps).as_deref() == Some(words);
    let steps = shrink::list(steps, |steps| same(&controller, steps));
    let fresh = Controller::new();
    let mut best = controller;
    for name in Controller::names() {
        let part = Controller::part(&name).expect("a listed name");
        let mut plainer = best.clone();
        plainer
            .set(&part, &fresh.get(&part).expect("a listed name"))
            .expect("its own image");
        let valid = matches!(caught(|| plainer.validate(now)), Ok(Ok(())));
        if valid && same(&plainer, &steps) {
            best = plainer;
        }
    }
    format!("now {now} state [{}] calls {steps:?}", show(&best))
}

/// Damaged states through `validate`, and the accepted ones through calls.
/// Errors and panics of accepted states are shown; a panic of `validate` itself
/// makes the run fail.
pub fn run(seed: u64, count: u64) -> bool {
    let mut random = Random::new(seed);
    let (mut accepted, mut refused, mut panicked) = (0u64, 0u64, 0u64);
    let mut found: BTreeMap<String, (u64, String)> = BTreeMap::new();
    for _ in 0..count {
        let (mut controller, now) = reached(&mut random);
        (0..1 + random.below(3)).for_each(|_| damage(&mut random, &mut controller));
        match caught(|| controller.validate(now)) {
            Ok(Ok(())) => accepted += 1,
            Ok(Err(_)) => {
                refused += 1;
                continue;
            }
            Err(words) => {
                panicked += 1;
                println!(
                    "validate panics: {words}: now {now} state [{}]",
                    show(&controller)
                );
                continue;
            }
        }
        let steps = random_steps(&mut random, now, 12, &GAPS);
        if let Some(words) = trouble(&controller, &steps) {
            let entry = found.entry(words.clone());
            entry
                .or_insert_with(|| (0, smaller(controller, now, steps, &words)))
                .0 += 1;
        }
    }
    println!("seed {seed}: {count} damaged states: validate accepts {accepted}, refuses {refused}, panics {panicked}");
    for (words, (times, shown)) in found {
        println!("{times} times {words}: {shown}");
    }
    panicked == 0
}
