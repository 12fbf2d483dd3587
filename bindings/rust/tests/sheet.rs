//! The level sheet and joined statistics, against lines written by hand.
use crate::common::{refused, refused_channels};
use puigneht::{Converter, Run, Settings, Stats, FRAME_BYTES};

fn none() -> Stats {
    Stats {
        clipped: [0; 6],
        lowest: [0; 6],
        highest: [0; 6],
        empty: [true; 6],
    }
}

#[test]
fn lines() {
    let mut stats = none();
    stats.clipped[0] = 99_999_999_999_998;
    stats.lowest[0] = -99_999_999_999;
    stats.highest[0] = 999_999_999_999;
    stats.empty[0] = false;
    stats.clipped[1] = 1;
    // Under the mark no number is looked at.
    stats.lowest[1] = i64::MIN;
    let text = "   099999999999998-99999999999999999999999\n   1             1           -           -\n    99999999999999                        \n";
    assert_eq!(stats.sheet(2).as_deref(), Ok(text));
}

#[test]
fn refusals() {
    let mut stats = none();
    assert_eq!(stats.sheet(0), Err(refused_channels(0)));
    assert_eq!(stats.sheet(7), Err(refused_channels(7)));
    stats.clipped = [u64::MAX; 6];
    assert_eq!(stats.sheet(1), Err(refused(20, 0, 0)));
    stats.clipped = [50_000_000_000_000; 6];
    assert!(stats.sheet(1).is_ok());
    assert_eq!(stats.sheet(2), Err(refused(20, 0, 0)));
    stats.clipped = [0; 6];
    stats.empty[0] = false;
    stats.lowest[0] = -100_000_000_000;
    assert_eq!(stats.sheet(1), Err(refused(20, 0, 0)));
    stats.lowest[0] = 1_000_000_000_000;
    assert_eq!(stats.sheet(1), Err(refused(20, 0, 0)));
}

#[test]
fn joined() {
    let (mut a, mut b) = (none(), none());
    a.clipped = [u64::MAX, 1, 0, 0, 0, 0];
    b.clipped = [1, 2, 3, 0, 0, 0];
    (a.empty[0], a.lowest[0], a.highest[0]) = (false, -5, 7);
    (b.empty[0], b.lowest[0], b.highest[0]) = (false, -9, 6);
    (b.empty[1], b.lowest[1], b.highest[1]) = (false, 3, 4);
    // Numbers under a mark do not count.
    (a.lowest[1], a.highest[1]) = (-100, 100);
    (a.lowest[2], b.highest[2]) = (-100, 100);
    let mut both = a;
    both.join(&b);
    assert_eq!(both.clipped, [u64::MAX, 3, 3, 0, 0, 0]);
    assert_eq!(both.lowest, [-9, 3, 0, 0, 0, 0]);
    assert_eq!(both.highest, [7, 4, 0, 0, 0, 0]);
    assert_eq!(both.empty, [false, false, true, true, true, true]);
    let mut neither = none();
    neither.join(&none());
    assert_eq!(neither, Stats::default());
}

// By what is told nothing clips, and by two tenths less something does.
#[test]
fn turned_down() {
    let clips = |byte: u8, decibels: f64| {
        let full = [byte; FRAME_BYTES];
        let run = Run { before: Some(&full), frames: &full, after: Some(&full) };
        Converter::open(Settings { channels: 1, decibels, ..Settings::default() }).unwrap().convert_run(run, &mut [0; 1176]).unwrap()
    };
    assert_eq!(Stats::default().turn_down(), 0.0);
    for (byte, decibels) in [(255, 0.0), (255, 6.0), (255, 23.99), (0, 0.0), (0, 0.05), (0, 6.1), (255, -1.0), (0, -90.0)] {
        let stats = clips(byte, decibels);
        let down = stats.turn_down();
        assert_eq!(clips(byte, decibels - down).clipped[0], 0);
        assert_eq!(down > 0.0, stats.clipped[0] > 0);
        assert!(down <= 0.1 || clips(byte, decibels - down + 0.2).clipped[0] > 0);
    }
    let mut most = Stats::default();
    most.lowest[3] = i64::MIN;
    assert!(most.turn_down() > 200.0);
}
