// Whole albums, each in one call of the original's `convert`. For each line RATE CUTOFF CHANNELS DB IN OUT of
// standard input, where IN has raw frames, OUT gets the samples, and a line tells of each channel the clips, and the
// lowest and the highest sample before the clamp. Those are of the original's own direct implementation, which
// compare/long_albums.py makes public and takes the clamp out of; clamped, it must be what `convert` gave.
use scarletbook_pcm::{Converter, Cutoff, Gain, PcmConfig, PcmOut, PcmRate, Run, reference};
use std::{fs, io};

fn config(words: &[&str]) -> PcmConfig {
    let rate = PcmRate::from_hz(words[0].parse().unwrap()).unwrap();
    let cutoff = Cutoff::ALL[words[1].parse::<usize>().unwrap()];
    let gain = Gain::from_db(words[3].parse().unwrap()).unwrap();
    PcmConfig::new(rate, cutoff, words[2].parse().unwrap()).with_gain(gain)
}

fn main() {
    for line in io::stdin().lines() {
        let line = line.unwrap();
        let words: Vec<&str> = line.split(' ').collect();
        let (config, frames) = (config(&words), fs::read(words[4]).unwrap());
        let channels: usize = words[2].parse().unwrap();
        let mut converter = Converter::new(config).unwrap();
        let far = reference::convert_area(config, &frames);
        assert_eq!(far.len(), frames.len() / 4704 * converter.samples_per_frame());
        let mut packed = vec![0u8; 3 * far.len()];
        let stats = converter.convert(Run::new(&frames[..]), PcmOut::S24le(&mut packed), None).unwrap();
        let held = far.iter().map(|z| (*z).clamp(-8_388_608, 8_388_607)).flat_map(|z| z.to_le_bytes()[..3].to_vec());
        assert!(held.eq(packed.iter().copied()));
        fs::write(words[5], packed).unwrap();
        let told = (0..channels).map(|c| {
            let of_channel = || far.iter().skip(c).step_by(channels);
            format!("{} {} {}", stats.clipped[c], of_channel().min().unwrap(), of_channel().max().unwrap())
        });
        println!("{}", told.collect::<Vec<_>>().join(" "));
    }
}
