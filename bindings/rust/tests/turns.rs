use crate::common::refused;
use puigneht::{turns, Waiting, Turns};

fn albums(of: &[(u64, u64)]) -> Vec<Waiting> {
    of.iter()
        .map(|&(frames, due)| Waiting { frames, due })
        .collect()
}

// The board turn by turn.
fn by_turns(board: &[Waiting], turn: u64) -> Vec<Turns> {
    let mut left: Vec<u64> = board.iter().map(|a| a.frames).collect();
    let mut finish = vec![0; board.len()];
    let mut now = 0;
    while let Some(next) = (0..board.len())
        .filter(|&a| left[a] > 0)
        .min_by_key(|&a| (board[a].due, a))
    {
        now += 1;
        left[next] = left[next].saturating_sub(turn);
        if left[next] == 0 {
            finish[next] = now;
        }
    }
    board
        .iter()
        .zip(finish)
        .map(|(a, finish)| Turns {
            finish,
            late: finish as i32 - a.due as i32,
        })
        .collect()
}

#[test]
fn three_albums() {
    let told = turns(&albums(&[(5, 2), (3, 1), (4, 2)]), 2).unwrap();
    let pairs: Vec<(u64, i32)> = told.iter().map(|t| (t.finish, t.late)).collect();
    assert_eq!(pairs, [(5, 3), (2, 1), (7, 5)]);
}

// Boards of every size beside the turns one by one: ties, an early album, last turns that are not full.
#[test]
fn as_turn_by_turn() {
    let mut x = 1u32;
    let mut some = |n: u64| {
        x = x.wrapping_mul(1664525).wrapping_add(1013904223);
        u64::from(x >> 16) % n
    };
    let mut compared = 0;
    for n in 1..=8 {
        for _ in 0..50 {
            let board: Vec<Waiting> = (0..n)
                .map(|_| Waiting {
                    frames: 1 + some(40),
                    due: some(12),
                })
                .collect();
            let turn = 1 + some(9);
            assert_eq!(turns(&board, turn).unwrap(), by_turns(&board, turn));
            compared += 1;
        }
    }
    assert_eq!(compared, 400);
}

#[test]
fn limits() {
    let greatest = albums(&[(540_000, 1_000_000); 8]);
    let told = turns(&greatest, 1).unwrap();
    assert_eq!(
        told[7],
        Turns {
            finish: 4_320_000,
            late: 3_320_000
        }
    );
    assert_eq!(
        turns(&albums(&[(1, 1_000_000)]), 540_000).unwrap(),
        [Turns {
            finish: 1,
            late: -999_999
        }]
    );
}

#[test]
fn out_of_range() {
    let refused = |of: &[(u64, u64)], turn| {
        assert_eq!(turns(&albums(of), turn), Err(refused(19, 0, 0)));
    };
    refused(&[], 1);
    refused(&[(1, 0); 9], 1);
    refused(&[(0, 0)], 1);
    refused(&[(540_001, 0)], 1);
    refused(&[(1, 1_000_001)], 1);
    refused(&[(1, 0), (u64::MAX, 0)], 1);
    refused(&[(1, 0)], 0);
    refused(&[(1, 0)], 540_001);
}
