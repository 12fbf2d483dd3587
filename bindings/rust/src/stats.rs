//! What conversions tell; the level sheet for the sleeve.

use crate::{calls, refusal::Call, Refusal};

/// What a conversion tells of each channel. Of a channel that has no samples all numbers are 0.
#[derive(Clone, Copy, Debug, PartialEq, Eq)]
pub struct Stats {
    /// Samples that were clipped.
    pub clipped: [u64; 6],
    /// The lowest sample before it was clipped.
    pub lowest: [i64; 6],
    /// The highest sample before it was clipped.
    pub highest: [i64; 6],
    /// Whether the channel has no samples: an unused one, and each of a run of no frames.
    pub empty: [bool; 6],
}

/// Those of no samples: where joining starts.
impl Default for Stats {
    fn default() -> Self {
        Stats { clipped: [0; 6], lowest: [0; 6], highest: [0; 6], empty: [true; 6] }
    }
}

impl Stats {
    // As the calls write them: clips, lowest, highest and mark of six channels.
    pub(crate) fn of(block: [u64; 24]) -> Self {
        let six = |from: usize| std::array::from_fn(|k| block[from + k]);
        Stats { clipped: six(0), lowest: six(6).map(|n| n as i64), highest: six(12).map(|n| n as i64), empty: six(18).map(|n| n == 1) }
    }

    fn block(&self) -> [u64; 24] {
        std::array::from_fn(|k| match k / 6 {
            0 => self.clipped[k],
            1 => self.lowest[k - 6] as u64,
            2 => self.highest[k - 12] as u64,
            _ => self.empty[k - 18].into(),
        })
    }

    /// Makes them those of both stretches: clips added, held at 2^64 - 1; the lowest and the highest of those that have
    /// samples; the mark where neither has. Joined in whatever order, the pieces of a run have the run's own.
    pub fn join(&mut self, more: &Stats) {
        let mut joined = self.block();
        let answer = calls::puigneht_join_stats_call(&mut joined, &more.block());
        assert_eq!(answer, 0, "statistics with known marks are joined");
        *self = Stats::of(joined);
    }

    /// Decibels, in tenths, by which a conversion is to be turned down so that no sample is clipped; 0 where none is.
    pub fn turn_down(&self) -> f64 {
        let over = |most: i64, end: i64| if most > end { (most as f64 + 0.5) / end as f64 } else { 1.0 };
        let high = self.highest.into_iter().max().map_or(1.0, |most| over(most, 8_388_607));
        let low = self.lowest.into_iter().min().map_or(1.0, |least| over(least.saturating_neg(), 8_388_608));
        (200.0 * high.max(low).log10()).ceil() / 10.0
    }

    /// The level sheet: a line for each of 1 to 6 channels (number, clips, lowest and highest before the clamp, or
    /// hyphens where there are no samples), and a line with the clips of these channels summed. Refused 1; 20 where a
    /// number is too wide for its column.
    ///
    /// ```
    /// let sheet = puigneht::Stats::default().sheet(1)?;
    /// assert_eq!(sheet, "   0             0           -           -\n                 0                        \n");
    /// # Ok::<(), puigneht::Refusal>(())
    /// ```
    pub fn sheet(&self, channels: u8) -> Result<String, Refusal> {
        let mut out = vec![0; 43 * (usize::from(channels) + 1)];
        let mut r = Refusal::of(Call::LevelSheet, out.len()).with(0, 0, channels.into());
        let answer = calls::puigneht_level_sheet_call(channels, &self.block(), &mut out, &mut r);
        r.result(answer, out.into_iter().map(char::from).collect())
    }
}
