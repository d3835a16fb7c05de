//! How long one call takes, ours and the Rust's by the same rule: calls are made in batches that last long enough for the
//! clock, several batches are timed, and the least counts.

/// The fewest calls of a batch; each larger one has twice as many.
pub const FEWEST: u32 = 8;
/// How many batches are timed.
const ROUNDS: usize = 5;
/// How often a doubtful measurement is made before it counts.
const TRIES: usize = 5;

/// Nanoseconds of one call, by batches that last at least so long. `take` makes so many calls and tells how long they took.
pub fn time_of_one(enough: f64, mut take: impl FnMut(u32) -> f64) -> f64 {
    let calls = calls_for(enough, &mut take);
    least(calls, &mut take) / f64::from(calls)
}

fn calls_for(enough: f64, take: &mut impl FnMut(u32) -> f64) -> u32 {
    let mut calls = FEWEST;
    while take(calls) < enough {
        calls = calls.checked_mul(2).expect("calls take time");
    }
    calls
}

fn least(calls: u32, take: &mut impl FnMut(u32) -> f64) -> f64 {
    (0..ROUNDS).map(|_| take(calls)).fold(f64::INFINITY, f64::min)
}

/// Whether twice as many calls take about twice as long, so that the compiler has left out none. A slow spell of the machine
/// can hide it: then it is said, and all is measured again.
pub fn all_made(enough: f64, mut take: impl FnMut(u32) -> f64, mut say: impl FnMut(String)) -> bool {
    for _ in 0..TRIES {
        let calls = calls_for(enough, &mut take);
        let (once, twice) = (least(calls, &mut take), least(2 * calls, &mut take));
        if twice > 1.4 * once {
            return true;
        }
        say(format!("{calls} calls take {once:.0} ns, twice as many {twice:.0} ns; measured again"));
    }
    false
}

#[cfg(test)]
mod tests {
    use super::{all_made, time_of_one, ROUNDS, TRIES};

    #[test]
    fn batches_double_until_they_last_long_enough() {
        let mut asked = Vec::new();
        let time = time_of_one(3000.0, |calls| {
            asked.push(calls);
            100.0 * f64::from(calls)
        });
        assert_eq!(time, 100.0);
        assert_eq!(asked, [&[8, 16, 32][..], &[32; ROUNDS]].concat());
    }

    #[test]
    fn the_least_counts() {
        let mut slow = (0..).map(|batch| if batch == 3 { 1.0 } else { 1.5 });
        assert_eq!(time_of_one(1.0, |calls| slow.next().unwrap() * 100.0 * f64::from(calls)), 100.0);
    }

    #[test]
    fn a_slow_spell_is_measured_again() {
        let (mut batches, mut said) = (0, Vec::new());
        let slow_at_first = |calls| {
            batches += 1;
            f64::from(calls) * if batches <= 1 + ROUNDS { 300.0 } else { 100.0 }
        };
        assert!(all_made(1000.0, slow_at_first, |what| said.push(what)));
        assert_eq!(said, ["8 calls take 2400 ns, twice as many 1600 ns; measured again"]);
    }

    #[test]
    fn calls_left_out_are_found() {
        let mut said = 0;
        assert!(!all_made(1000.0, |_| 1000.0, |_| said += 1));
        assert_eq!(said, TRIES);
    }
}
