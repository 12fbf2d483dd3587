// Bytes of frames by a pattern and a seed, and seeds that hit exact halves.
pub const FRAME: usize = scarletbook_pcm::FRAME_BYTES_PER_CHANNEL;

// Bytes by a pattern: 0 chance, 1 one byte, 2 loud, 3 repeating every four bytes of a channel.
// test_conversions/src/input.rt has the same rule.
pub fn bytes(pattern: u64, seed: u64, channels: usize, frames: usize) -> Vec<u8> {
    let mut x = seed;
    let mut all = vec![0; frames * FRAME * channels];
    for (k, byte) in all.iter_mut().enumerate() {
        if pattern == 3 && k % (4 * channels) == 0 {
            x = seed;
        }
        x = (x * 1_664_525 + 1_013_904_223) % (1 << 32);
        let high = (x >> 24) as u8;
        *byte = match pattern {
            1 => (seed % 256) as u8,
            2 if high >= 16 => if k / 300 % 2 == 0 { 0xff } else { 0 },
            _ => high,
        };
    }
    all
}

// Route and seed of mono frames in which a sum of some stage is an exact half, and its rounding shows in a sample at 18
// dB: found by trying seeds with halves rounded away from zero, stage by stage and sign by sign.
pub const HALVES: [(u64, u64); 28] = [
    (0, 108181), (0, 113656), (1, 284017), (1, 216733), (1, 202896), (1, 218057), (2, 331248), (2, 318565), (2, 304621), (2, 303352),
    (2, 381116), (2, 309974), (3, 406710), (3, 405649), (4, 523507), (4, 535585), (4, 506649), (4, 564808), (5, 613026), (5, 612401),
    (5, 604090), (5, 605011), (5, 607557), (5, 613148), (7, 806240), (7, 854424), (8, 920493), (8, 946015),
];
