//! The level report.

use crate::{calls, refusal::Call, Converter, Refusal, Run};

/// Bytes of the lines of a frame.
pub(crate) const LINES: usize = 864;
/// Bytes of the last line.
pub(crate) const LAST_LINE: usize = 144;

/// The level report, frame by frame: a line for each channel, `frame N channel C clipped K low L high H over O`, with
/// its clipped samples, its lowest and highest sample, and the overs by the studio rule whose third sample falls in the
/// frame.
///
/// What is in progress behind a frame depends on the frame with its neighbours alone. So whoever begins at frame N
/// begins [`at`](Levels::at) N - 1 and leaves the lines of that.
///
/// ```
/// use puigneht::{Converter, Levels, Settings};
/// let converter = Converter::open(Settings { channels: 1, ..Settings::default() })?;
/// let (frames, mut levels) = (vec![0x69; 2 * converter.frame_bytes()], Levels::default());
/// for run in converter.runs(&frames, 1) {
///     print!("{}", levels.frame(&converter, run)?);
/// }
/// assert_eq!(levels.last_line(), "frames 2 clipped 0\n");
/// # Ok::<(), puigneht::Refusal>(())
/// ```
#[derive(Clone, Debug, Default)]
pub struct Levels {
    frames: u64,
    clipped: u64,
    standings: [u64; 12],
    samples: Vec<i32>,
}

impl Levels {
    /// Whose first frame has the number `frame`, with nothing in progress before it.
    pub fn at(frame: u64) -> Self {
        Levels { frames: frame, ..Levels::default() }
    }

    /// The lines of the next frame, which is exactly one. Refused as [`Converter::convert_frame`].
    pub fn frame(&mut self, converter: &Converter, run: Run<'_>) -> Result<String, Refusal> {
        self.samples.resize(converter.samples_of(1), 0);
        let (mut lines, mut found, mut r) = ([0; LINES], [0; 2], converter.told(Call::FrameLevels, run.frames.len()));
        let answer = calls::puigneht_frame_levels_call(
            &converter.record, &run, false, self.frames, &mut self.standings, &mut self.samples, &mut lines, &mut found, &mut r,
        );
        r.result(answer, ())?;
        self.frames += 1;
        self.clipped += found[1];
        Ok(text(&lines, found[0] as usize))
    }

    /// The samples of the frame that was told last, the channels in turn.
    pub fn samples(&self) -> &[i32] {
        &self.samples
    }

    /// The report's last line.
    pub fn last_line(&self) -> String {
        let mut line = [0; LAST_LINE];
        let length = calls::puigneht_last_line_call(self.frames, self.clipped, &mut line);
        text(&line, length)
    }
}

fn text(bytes: &[u8], length: usize) -> String {
    bytes[..length].iter().copied().map(char::from).collect()
}
