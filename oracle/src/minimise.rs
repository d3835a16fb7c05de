//! The smallest script that still shows a difference: lines are dropped, many at a time and then one by one.

/// A script that needs hundreds of its lines would be tried for hours otherwise.
const MOST_TRIES: usize = 300;

/// Drops lines as long as the rest still fails.
pub fn minimise<T: Clone>(lines: &[T], fails: impl Fn(&[T]) -> bool) -> Vec<T> {
    let mut left = lines.to_vec();
    let mut chunk = left.len().div_ceil(2);
    let mut tries = 0;
    while chunk > 0 && tries < MOST_TRIES {
        let before = left.len();
        let mut at = 0;
        while at < left.len() && tries < MOST_TRIES {
            let mut without = left.clone();
            without.drain(at..(at + chunk).min(left.len()));
            tries += 1;
            if fails(&without) {
                left = without;
            } else {
                at += chunk;
            }
        }
        // Single lines are tried again until none can go: dropping one may free another.
        if chunk > 1 || left.len() == before {
            chunk /= 2;
        }
    }
    left
}

#[cfg(test)]
mod tests {
    use super::minimise;

    #[test]
    fn keeps_only_what_fails() {
        let lines: Vec<u32> = (0..100).collect();
        let fails = |lines: &[u32]| lines.contains(&17) && lines.contains(&80);
        assert_eq!(minimise(&lines, fails), [17, 80]);
    }
}
