//! Turns on one board.

use crate::{calls, refusal::Call, Refusal};

/// An album that waits for a board.
#[derive(Clone, Copy, Debug, PartialEq, Eq)]
pub struct Waiting {
    /// 1 to 540,000.
    pub frames: u64,
    /// The turn after which it is due, 0 to 1,000,000.
    pub due: u64,
}

/// What a simulation tells of an album.
#[derive(Clone, Copy, Debug, PartialEq, Eq)]
pub struct Turns {
    /// The turn in which the album finishes, counted from 1.
    pub finish: u64,
    /// Finish minus due.
    pub late: i32,
}

/// Simulates turns of `turn` frames, 1 to 540,000, on a board with 1 to 8 albums. Each turn goes to the unfinished
/// album that is due first, on a tie to the first in the list. No order has a smaller greatest lateness. Refused 19.
///
/// ```
/// use puigneht::{turns, Waiting};
/// let told = turns(&[Waiting { frames: 5, due: 2 }, Waiting { frames: 3, due: 1 }], 2)?;
/// assert_eq!((told[0].finish, told[0].late, told[1].finish), (5, 3, 2));
/// # Ok::<(), puigneht::Refusal>(())
/// ```
pub fn turns(albums: &[Waiting], turn: u64) -> Result<Vec<Turns>, Refusal> {
    let (frames, dues): (Vec<u64>, Vec<u64>) = albums.iter().map(|a| (a.frames, a.due)).unzip();
    let (mut finishes, mut late) = (vec![0; albums.len()], vec![0; albums.len()]);
    let answer = calls::puigneht_turns_call(&frames, &dues, turn, &mut finishes, &mut late);
    let told = finishes.into_iter().zip(late).map(|(finish, late)| Turns { finish, late });
    Refusal::of(Call::Turns, albums.len()).result(answer, told.collect())
}
