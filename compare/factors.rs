// The files that compare/factors.sh writes. The functions of the original stand above this text.

struct Random(u64);

impl Random {
    fn next(&mut self) -> u64 {
        self.0 ^= self.0 << 13;
        self.0 ^= self.0 >> 7;
        self.0 ^= self.0 << 17;
        self.0
    }

    // From low to high.
    fn within(&mut self, low: f64, high: f64) -> f64 {
        low + (high - low) * ((self.next() >> 11) as f64 / (1u64 << 53) as f64)
    }
}

// A line a row; each number as sixteen hexadecimal digits.
fn file<const N: usize>(name: &str, rows: impl Iterator<Item = [u64; N]>) {
    let line = |row: [u64; N]| row.map(|n| format!("{n:016x}")).join(" ") + "\n";
    std::fs::write(name, rows.map(line).collect::<String>()).unwrap();
}

// Made positive.
fn biased(n: i32) -> u64 {
    (i64::from(n) + (1 << 31)) as u64
}

fn decibels(random: &mut Random) -> Vec<f64> {
    let mut all = vec![0.0, -0.0, 24.0, -120.0, 5e-324, -5e-324, f64::MIN_POSITIVE, -1e-310, 1e-17, -1e-9];
    // Past the gain call's limits `db_to_linear` still answers.
    all.extend([24.0f64.next_up(), (-120.0f64).next_down(), 1000.0, -1000.0, 1e300, -1e300, f64::INFINITY, f64::NEG_INFINITY]);
    all.extend((-120..=24).map(f64::from));
    all.extend((-12..=12).map(|tenths| f64::from(tenths) / 10.0));
    all.extend((0..30).map(|_| random.within(-120.0, 24.0)));
    all
}

fn scalings(random: &mut Random) -> Vec<(i32, f64)> {
    // Halves, and both ends of the clamp, at 0 dB.
    let at_zero = [0, 4, -4, 12, -12, 20, -20, 3, 5, -3, -5, 67108856, 67108857, 67108858, 67108859, 67108860, 67108864, -67108864, -67108867, -67108868, -67108869, -67108872];
    let mut all: Vec<(i32, f64)> = at_zero.iter().map(|y| (*y, 0.0)).collect();
    all.extend([i32::MAX, -i32::MAX].iter().flat_map(|y| [(*y, 24.0), (*y, -120.0)]));
    all.extend((0..40).map(|_| (random.next() as i32 >> 4, random.within(-120.0, 24.0))));
    all.extend((0..30).map(|_| (random.next() as i32 >> 4, random.within(-30.0, 6.0))));
    all
}

fn main() {
    let mut random = Random(0x9e37_79b9_7f4a_7c15);
    let db = decibels(&mut random);
    file("factors", db.iter().map(|x| [x.to_bits(), db_to_linear(*x).to_bits()]));
    let scaled = |(y, db): (i32, f64)| {
        let mut sample = [0i32];
        let clips = quantise(&[f64::from(y)], db_to_linear(db), &mut sample);
        [biased(y), db.to_bits(), biased(sample[0]), clips as u64]
    };
    file("scalings", scalings(&mut random).into_iter().map(scaled));
}
