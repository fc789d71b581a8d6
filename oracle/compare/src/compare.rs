//! Asks both sides the same questions, counts them, and shows the first
//! difference of each function as the smallest input that shrinking finds. A
//! panic of either side is a difference.
use crate::{question::Question, shrink, side::Named, total};
use original::ask::caught;
use std::{cell::RefCell, collections::BTreeMap};

/// How many answers of a function there were: by the number of the refusal, and
/// in the first place those that were no refusal.
type Counts = [u64; 10];

pub struct Compare<A, B> {
    first: A,
    second: B,
    counts: BTreeMap<&'static str, Counts>,
    differs: BTreeMap<&'static str, String>,
}

impl<A: Named, B: Named> Compare<A, B> {
    pub fn new(first: A, second: B) -> Self {
        let (counts, differs) = (BTreeMap::new(), BTreeMap::new());
        Self {
            first,
            second,
            counts,
            differs,
        }
    }
    /// Asks a batch. A function that has differed once is not asked again.
    pub fn batch<Q: Question<A> + Question<B>>(&mut self, questions: &[Q]) {
        if self.differs.contains_key(Q::NAME) {
            return;
        }
        let mut counts = self.counts.get(Q::NAME).copied().unwrap_or_default();
        let same = self.same(questions, &mut counts);
        self.counts.insert(Q::NAME, counts);
        if let Some(question) = questions.get(same) {
            let report = self.report(question);
            self.differs.insert(Q::NAME, report);
        }
    }
    /// How many questions of the batch have the same answer, up to the first
    /// that has not. The count stands outside what may panic.
    fn same<Q: Question<A> + Question<B>>(
        &mut self,
        questions: &[Q],
        counts: &mut Counts,
    ) -> usize {
        let mut count = 0;
        let (first, second) = (&mut self.first, &mut self.second);
        let _ = caught(|| {
            for question in questions {
                let answer = question.ask(first);
                if answer != question.ask(second) {
                    break;
                }
                counts[Q::refusal(&answer) as usize] += 1;
                count += 1;
            }
        });
        count
    }
    fn report<Q: Question<A> + Question<B>>(&mut self, question: &Q) -> String {
        let this = RefCell::new(self);
        let fails = |numbers: &[u128]| {
            Q::of(numbers).is_some_and(|question| {
                this.borrow_mut().same(&[question], &mut Counts::default()) == 0
            })
        };
        let start = question.numbers();
        // Outside the limits there is no smaller input to look for.
        let small = if fails(&start) {
            shrink::numbers(start, Q::LEAST, fails)
        } else {
            start
        };
        let smallest = Q::of(&small).unwrap_or(*question);
        let this = this.into_inner();
        let first = caught(|| smallest.ask(&mut this.first));
        let second = caught(|| smallest.ask(&mut this.second));
        let (a, b) = (A::NAME, B::NAME);
        format!("smallest input {smallest:?}\n  {a}: {first:?}\n  {b}: {second:?}\n  first seen as {question:?}")
    }
    /// The functions that differ.
    #[cfg(test)]
    pub fn differing(&self) -> Vec<&'static str> {
        self.differs.keys().copied().collect()
    }
    /// Prints the counts and the differences; true if something was compared
    /// and there were none.
    pub fn finish(&self) -> bool {
        let mut compared = 0;
        for (function, counts) in &self.counts {
            let count: u64 = counts.iter().sum();
            compared += count;
            println!(
                "{} = {}: {function}: {count} inputs compared{}",
                A::NAME,
                B::NAME,
                refusals(counts)
            );
        }
        for (function, report) in &self.differs {
            println!("DIFFERENCE in {function}: {report}");
        }
        total::add(compared);
        if compared == 0 {
            println!("NOTHING WAS COMPARED");
        }
        compared != 0 && self.differs.is_empty()
    }
}

/// How often each refusal was answered, if any was.
fn refusals(counts: &Counts) -> String {
    let known = counts.iter().enumerate().skip(1);
    let words: Vec<String> = known
        .filter(|(_, count)| **count != 0)
        .map(|(number, count)| format!("{count} refused as {number}"))
        .collect();
    if words.is_empty() {
        return String::new();
    }
    format!(" ({})", words.join(", "))
}

/// The driver itself: a side with a fault must be found, and shown small.
#[cfg(test)]
mod tests {
    use super::*;
    use crate::{
        clock,
        paper::Paper,
        random::Random,
        side::{ClockState, Original, Side},
        voltage,
    };
    use original::{
        ask::{clock::Parts, voltage::Question as Voltage},
        devices::nt7508::LcdVoltages,
    };

    /// Document 01's rules with three faults: a microsecond rounded up, an edge
    /// at the asked moment left out, a panic in a corner of the voltages.
    struct Faulty(Paper);

    impl Named for Faulty {
        const NAME: &'static str = "faulty";
    }

    impl Side for Faulty {
        fn micros(&mut self, us: u64) -> u128 {
            self.0.micros(us) + u128::from(us > 5000 && us % 3 == 1)
        }
        fn new_clock(&mut self, at: u128, p: u64, q: u64) -> Parts {
            self.0.new_clock(at, p, q)
        }
        fn edges_to(&mut self, clock: &ClockState, now: u128) -> u64 {
            now.checked_sub(1)
                .map_or(0, |now| self.0.edges_to(clock, now))
        }
        fn advance(&mut self, clock: &ClockState, edges: u64) -> ClockState {
            self.0.advance(clock, edges)
        }
        fn voltages(&mut self, question: &Voltage) -> LcdVoltages {
            assert!(
                question.settings[0] < 40 || question.temperature < 85_000,
                "corner"
            );
            self.0.voltages(question)
        }
    }

    #[test]
    fn faults_are_found_and_shrunk() {
        original::ask::quiet_panics();
        let mut compare = Compare::new(Original::new(), Faulty(Paper));
        clock::run(&mut compare, &mut Random::new(1), 4096);
        for _ in 0..100 {
            let settings = [50, 7, 7, 11, 3, 1, 9, 3];
            let question = voltage::cornered(&mut Random::new(2), settings, &[90_000]);
            compare.batch(&[Voltage {
                temperature: 90_000,
                ..question
            }]);
        }
        assert!(!compare.finish());
        let small = |name: &str| {
            compare.differs[name]
                .lines()
                .next()
                .unwrap_or("")
                .to_string()
        };
        assert_eq!(small("microseconds"), "smallest input Micros(5002)");
        // The first edge at 16128 Hz, its time rounded down, from the start.
        let edge = (1u128 << 64) / 16_128;
        assert!(small("edges up to a moment").ends_with(&format!("now: {edge} }}")));
        assert!(
            small("voltages").contains("[40, 0, 0, 0, 0, 0, 0, 0], supply: 0, temperature: 85000")
        );
        // An edge left out shows in what is passed to a moment too.
        assert_eq!(compare.differs.len(), 4);
    }
}
