//! A rack: DSF albums converted to WAV files in turns, a piece each, by some threads. Prints their sheets and overs.
//!
//!     rack RATE CUTOFF DB THREADS {IN.dsf OUT.wav}..     (88200 standard -6 4 a.dsf a.wav b.dsf b.wav)
use puigneht::{unpack_s24le, Album, Format, Memory, Overs, Settings, Stats, Wave, Write};
use std::{env, error::Error, fs::File, os::unix::fs::FileExt, process, sync::Mutex, thread};

/// An album, and the WAV file that it becomes.
struct Job {
    name: String,
    album: Album,
    wave: Wave,
    out: File,
    stats: Mutex<Stats>,
}

impl Job {
    fn new(from: &str, to: &str, settings: Settings<'_>) -> Result<Job, Box<dyn Error>> {
        let album = Album::open_file(from, settings)?;
        let wave = album.wave(None, Format::Auto)?;
        let out = File::options().read(true).write(true).create_new(true).open(to).map_err(|e| format!("{to}: {e}"))?;
        out.write_all_at(&wave.head, 0)?; // whole frames are even: there is no pad
        Ok(Job { name: to.into(), album, wave, out, stats: Mutex::default() })
    }

    fn turn(&self, number: u64, memory: &mut Memory, out: &mut Vec<u8>) -> Result<(), puigneht::Error> {
        let plan = self.album.plan(number)?;
        out.resize(plan.length, 0);
        let stats = self.album.convert(&plan, memory, out)?;
        let Write { bytes, place } = self.album.write(&self.wave, &plan);
        self.out.write_all_at(&out[bytes], place)?;
        self.stats.lock().unwrap().join(&stats);
        Ok(())
    }

    /// The sheet, and the overs of the samples that were written.
    fn report(&self) -> Result<(), Box<dyn Error>> {
        let channels = self.album.channels();
        let (mut overs, end) = (Overs::new(channels.into()), self.wave.length());
        let mut part = vec![0; 180_000]; // whole turns of one to six channels
        for place in (self.wave.head.len() as u64..end).step_by(part.len()) {
            part.truncate((end - place) as usize);
            self.out.read_exact_at(&mut part, place)?;
            overs.count(&unpack_s24le(&part).collect::<Vec<_>>());
        }
        print!("{}\n{}", self.name, self.stats.lock().unwrap().sheet(channels)?);
        for (channel, count) in overs.counts().into_iter().enumerate() {
            println!("channel {channel} overs {count}");
        }
        Ok(())
    }
}

fn rack(args: &[String]) -> Result<(), Box<dyn Error>> {
    let [rate, cutoff, decibels, threads, names @ ..] = args else {
        return Err("to be called as rack RATE CUTOFF DB THREADS {IN.dsf OUT.wav}..".into());
    };
    let settings = Settings { rate: rate.parse()?, cutoff: cutoff.parse()?, decibels: decibels.parse()?, ..Settings::default() };
    let jobs = names.chunks_exact(2).map(|pair| Job::new(&pair[0], &pair[1], settings)).collect::<Result<Vec<_>, _>>()?;
    let mut turns: Vec<_> = jobs.iter().flat_map(|job| (0..job.album.number_of_pieces()).map(move |number| (number, job))).collect();
    turns.sort_by_key(|&(number, _)| number);
    let turns = Mutex::new(turns.into_iter());
    thread::scope(|scope| {
        let work = || {
            let (mut memory, mut out) = (Memory::default(), vec![]);
            loop {
                let next = turns.lock().unwrap().next();
                let Some((number, job)) = next else { return Ok(()) };
                job.turn(number, &mut memory, &mut out)?;
            }
        };
        let threads: Vec<_> = (0..threads.parse().unwrap_or(1).clamp(1, 64)).map(|_| scope.spawn(work)).collect();
        threads.into_iter().try_for_each(|thread| thread.join().unwrap())
    })
    .map_err(|e: puigneht::Error| e.to_string())?;
    jobs.iter().try_for_each(Job::report)
}

fn main() {
    if let Err(e) = rack(&env::args().skip(1).collect::<Vec<_>>()) {
        eprintln!("rack: {e}");
        process::exit(1);
    }
}
