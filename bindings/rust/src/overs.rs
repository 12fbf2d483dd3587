//! Overs by the studio rule.

use crate::calls;

/// An end of full scale, 8,388,607 or -8,388,608, or none.
#[derive(Clone, Copy, Debug, Default, PartialEq, Eq)]
pub enum End {
    #[default]
    /// Neither.
    Neither,
    /// 8,388,607.
    High,
    /// -8,388,608.
    Low,
}

/// What is in progress at a place of a channel: the end at which the samples just before it stand, and how many. More
/// than 3 count as 3; no end, or 0, is nothing, as at the start.
#[derive(Clone, Copy, Debug, Default, PartialEq, Eq)]
pub struct Progress {
    /// Where they stand.
    pub end: End,
    /// How many, at most 3.
    pub length: u64,
}

/// Overs of a channel (from 0) in samples of so many channels in turn, and what is in progress behind them: runs of
/// three or more samples at one end of full scale, clipped or not, as long as they can be, each counted at its third
/// sample. A channel that is not there has no samples. [`Overs`] carries what is in progress.
pub fn overs(samples: &[i32], channels: usize, channel: usize, before: Progress) -> (u64, Progress) {
    let mut told = [0, before.end as u64, before.length];
    let answer = calls::puigneht_overs_call(samples, channels, channel, &mut told);
    assert_eq!(answer, 0, "a call with a known end is accepted");
    let [count, end, length] = told;
    let end = [End::Neither, End::High, End::Low][end as usize];
    (count, Progress { end, length })
}

/// Counts the overs of each channel, stretch after stretch: it carries what is in progress where a stretch ends, so
/// where the samples are cut makes no difference.
///
/// What is in progress at a place depends on the last three samples of each channel before it alone. So threads may
/// count stretches in any order: each counts those three, takes [`from_here`](Overs::from_here), and counts its
/// stretch.
///
/// ```
/// let mut overs = puigneht::Overs::new(1);
/// overs.count(&[0, 8388607, 8388607]);
/// assert_eq!(overs.count(&[8388607, 0]), [1]);
/// assert_eq!(overs.total(), 1);
/// ```
#[derive(Clone, Debug, PartialEq, Eq)]
pub struct Overs {
    of: Vec<(u64, Progress)>,
}

impl Overs {
    /// Of so many channels, at an album's start.
    pub fn new(channels: usize) -> Self {
        Overs { of: vec![Default::default(); channels] }
    }

    /// Adds those of the next samples, the channels in turn, and gives these alone.
    ///
    /// # Panics
    ///
    /// Where the samples are no whole turns of the channels.
    pub fn count(&mut self, samples: &[i32]) -> Vec<u64> {
        let channels = self.of.len();
        assert!(samples.is_empty() || (channels > 0 && samples.len() % channels == 0), "samples are whole turns of the channels");
        let one = |(channel, (total, progress)): (usize, &mut (u64, Progress))| {
            let (count, next) = overs(samples, channels, channel, *progress);
            (*total, *progress) = (*total + count, next);
            count
        };
        self.of.iter_mut().enumerate().map(one).collect()
    }

    /// The overs of each channel so far.
    pub fn counts(&self) -> Vec<u64> {
        self.of.iter().map(|&(count, _)| count).collect()
    }

    /// Of all channels.
    pub fn total(&self) -> u64 {
        self.counts().into_iter().sum()
    }

    /// What is in progress in each channel.
    pub fn progress(&self) -> Vec<Progress> {
        self.of.iter().map(|&(_, progress)| progress).collect()
    }

    /// What is in progress, without the overs so far.
    pub fn from_here(&self) -> Overs {
        Overs { of: self.of.iter().map(|&(_, progress)| (0, progress)).collect() }
    }
}
