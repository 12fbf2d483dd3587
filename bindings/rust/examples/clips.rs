//! Prints the clipped samples of each frame of a file of raw stereo frames, at a gain.
//!
//!     cargo run --release --example clips FRAMES 6
use puigneht::{Converter, Run, Settings};
use std::{env, error::Error, fs, process};

fn main() {
    if let Err(e) = clips() {
        eprintln!("clips: {e}");
        process::exit(1);
    }
}

fn clips() -> Result<(), Box<dyn Error>> {
    let mut args = env::args().skip(1);
    let (Some(path), Some(db)) = (args.next(), args.next()) else {
        return Err("to be called as clips FILE DB".into());
    };
    let decibels = db.parse().map_err(|_| format!("DB is a number from -120 to 24, and not '{db}'"))?;
    let frames = fs::read(&path).map_err(|e| format!("cannot read {path}: {e}"))?;
    let converter = Converter::open(Settings { decibels, ..Settings::default() })?;
    let count = frames.len() / converter.frame_bytes();
    let mut out = vec![0; 3 * converter.samples_of(count)];
    let mut counts = vec![0; count];
    let clipped = converter.convert(Run::alone(&frames), &mut out, Some(&mut counts))?.clipped;
    for (k, n) in counts.iter().enumerate().filter(|(_, &n)| n > 0) {
        println!("frame {k}: {n}");
    }
    println!("left {}, right {}", clipped[0], clipped[1]);
    Ok(())
}
