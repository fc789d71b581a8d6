//! Makes a failing input small. An input is a list of numbers, each of which is
//! moved towards its plainest value as long as the input still fails.

/// The smallest failing input that single steps find, starting from one that
/// fails. `least` holds each number's plainest value.
pub fn numbers(start: Vec<u128>, least: &[u128], fails: impl Fn(&[u128]) -> bool) -> Vec<u128> {
    let mut best = start;
    loop {
        let before = best.clone();
        for (index, goal) in least.iter().enumerate() {
            towards(&mut best, index, *goal, &fails);
        }
        if best == before {
            return best;
        }
    }
}

/// Moves one number as near to `goal` as it goes: by the whole distance, else
/// by half, a quarter and so on, down to 1.
fn towards(best: &mut [u128], index: usize, goal: u128, fails: &impl Fn(&[u128]) -> bool) {
    let mut step = best[index].abs_diff(goal);
    while step != 0 {
        let old = best[index];
        let step_now = step.min(old.abs_diff(goal));
        best[index] = if old > goal {
            old - step_now
        } else {
            old + step_now
        };
        if step_now == 0 || !fails(best) {
            best[index] = old;
            step /= 2;
        }
    }
}

/// The shortest failing list that leaving out pieces finds: halves first, then
/// ever shorter pieces, down to single items. For lists of calls.
pub fn list<T: Clone>(start: Vec<T>, fails: impl Fn(&[T]) -> bool) -> Vec<T> {
    let mut best = start;
    let mut piece = best.len() / 2;
    while piece != 0 {
        let mut at = 0;
        while at < best.len() {
            let mut shorter = best.clone();
            shorter.drain(at..(at + piece).min(best.len()));
            if fails(&shorter) {
                best = shorter;
            } else {
                at += piece;
            }
        }
        piece /= 2;
    }
    best
}

#[cfg(test)]
mod tests {
    #[test]
    fn finds_the_bound() {
        let fails = |n: &[u128]| n[0] >= 1000 && n[1] <= 7;
        assert_eq!(super::numbers(vec![123_456, 3], &[0, 50], fails), [1000, 7]);
    }
    #[test]
    fn finds_the_pair() {
        let fails = |calls: &[u32]| calls.contains(&3) && calls.contains(&8);
        assert_eq!(super::list((0..100).collect(), fails), [3, 8]);
    }
}
