use crate::common::numbers;
use puigneht::{overs, End, Overs, Progress};

const HIGH: i32 = 8_388_607;
const LOW: i32 = -8_388_608;

// The third samples of the runs as long as they can be, by looking for where each run begins and ends.
fn thirds(samples: &[i32]) -> Vec<usize> {
    let mut all = Vec::new();
    let mut start = 0;
    while start < samples.len() {
        let end = (start..samples.len())
            .find(|&k| samples[k] != samples[start])
            .unwrap_or(samples.len());
        if (samples[start] == HIGH || samples[start] == LOW) && end - start >= 3 {
            all.push(start + 2);
        }
        start = end;
    }
    all
}

// Signals with runs of every length, one to three channels, cut at random places: each piece has the overs whose third
// sample it has.
#[test]
fn cut_anywhere() {
    let mut some = numbers(1);
    let mut compared = 0;
    for _ in 0..300 {
        let channels = 1 + some(3);
        let rows = some(60);
        let values = [HIGH, HIGH, LOW, HIGH - 1, LOW + 1, 0];
        let mut held = vec![0; channels];
        let mut samples = Vec::new();
        for _ in 0..rows {
            for value in held.iter_mut() {
                if some(3) == 0 {
                    *value = values[some(values.len())];
                }
                samples.push(*value);
            }
        }
        for c in 0..channels {
            let own: Vec<i32> = samples.iter().skip(c).step_by(channels).copied().collect();
            let all = thirds(&own);
            let mut state = Progress::default();
            let mut at = 0;
            while at < rows {
                let n = 1 + some(rows - at);
                let (count, next) = overs(
                    &samples[at * channels..(at + n) * channels],
                    channels,
                    c,
                    state,
                );
                let here = all.iter().filter(|&&k| (at..at + n).contains(&k)).count();
                assert_eq!(count, here as u64);
                state = next;
                at += n;
                compared += 1;
            }
        }
    }
    assert!(compared > 1000);
}

#[test]
fn in_progress() {
    let after = |end, length| Progress { end, length };
    let told = |count, end, length| (count, after(end, length));
    let none = Progress::default();
    assert_eq!(overs(&[HIGH; 2], 1, 0, none), told(0, End::High, 2));
    assert_eq!(overs(&[HIGH; 5], 1, 0, none), told(1, End::High, 3));
    assert_eq!(
        overs(&[LOW], 1, 0, after(End::Low, 2)),
        told(1, End::Low, 3)
    );
    assert_eq!(
        overs(&[LOW], 1, 0, after(End::High, 2)),
        told(0, End::Low, 1)
    );
    assert_eq!(
        overs(&[LOW], 1, 0, after(End::Low, 3)),
        told(0, End::Low, 3)
    );
    assert_eq!(
        overs(&[0], 1, 0, after(End::Low, 2)),
        told(0, End::Neither, 0)
    );
}

// States from outside, no samples, and channels that are not there: no overs, and the state as it counts.
#[test]
fn outside() {
    let state = |end, length| Progress { end, length };
    for (given, counts) in [
        (state(End::High, 1_000_000), state(End::High, 3)),
        (state(End::Low, 0), Progress::default()),
        (state(End::Neither, 2), Progress::default()),
        (state(End::Low, 2), state(End::Low, 2)),
    ] {
        let none = (0, counts);
        assert_eq!(overs(&[], 1, 0, given), none);
        assert_eq!(overs(&[HIGH; 8], 2, 2, given), none);
        assert_eq!(overs(&[HIGH; 8], 0, 0, given), none);
        assert_eq!(overs(&[HIGH], 2, 1, given), none);
        assert_eq!(overs(&[HIGH; 8], usize::MAX, usize::MAX - 1, given), none);
    }
    // A length over 3 is not a second over; items past the last whole row count for the channels that have one.
    assert_eq!(overs(&[HIGH; 2], 1, 0, state(End::High, u64::MAX)).0, 0);
    assert_eq!(overs(&[HIGH; 5], 2, 0, Progress::default()).0, 1);
    assert_eq!(overs(&[HIGH; 5], 2, 1, Progress::default()).0, 0);
}

// What `Overs` carries: stretches of whole rows, joined; and stretches in any order, from the three rows before.
#[test]
fn carried() {
    let mut some = numbers(7);
    let mut found = 0;
    for _ in 0..200 {
        let channels = 1 + some(6);
        let rows = 4 + some(60);
        let mut held = vec![0; channels];
        let mut samples = Vec::new();
        for _ in 0..rows {
            for value in held.iter_mut() {
                if some(3) == 0 {
                    *value = [HIGH, HIGH, LOW, HIGH - 1, LOW + 1, 0][some(6)];
                }
                samples.push(*value);
            }
        }
        let own = |c: usize| samples.iter().skip(c).step_by(channels).copied().collect::<Vec<_>>();
        let right: Vec<u64> = (0..channels).map(|c| thirds(&own(c)).len() as u64).collect();
        let (mut uncut, mut cut, mut sum, mut at) = (Overs::new(channels), Overs::new(channels), vec![0; channels], 0);
        assert_eq!(uncut.count(&samples), right);
        while at < samples.len() {
            let end = samples.len().min(at + channels * some(9));
            let told = cut.count(&samples[at..end]);
            sum.iter_mut().zip(told).for_each(|(a, b)| *a += b);
            at = end;
        }
        assert_eq!((cut.counts(), sum), (right.clone(), right.clone()));
        assert_eq!((cut.progress(), cut.total()), (uncut.progress(), right.iter().sum()));
        found += cut.total();

        let at = channels * (3 + some(rows - 3));
        let (mut lead, mut first) = (Overs::new(channels), Overs::new(channels));
        lead.count(&samples[at - 3 * channels..at]);
        let mut rest = lead.from_here();
        assert_eq!((rest.total(), rest.progress()), (0, lead.progress()));
        first.count(&samples[..at]);
        rest.count(&samples[at..]);
        assert_eq!(first.counts().into_iter().zip(rest.counts()).map(|(a, b)| a + b).collect::<Vec<_>>(), right);
    }
    assert!(found > 100);
    assert_eq!(Overs::new(0).count(&[]), []);
}

#[test]
#[should_panic(expected = "whole turns")]
fn no_whole_turns() {
    Overs::new(2).count(&[HIGH; 3]);
}
