use puigneht::{Album, Error, Output, Rate, Settings};
use std::{env, path::PathBuf, process};

fn convert(tracks: &[PathBuf]) -> Result<String, Error> {
    let album = Album::open_files(tracks, Settings { rate: Rate::Hz176400, ..Settings::default() })?;
    let wavs: Vec<_> = tracks.iter().map(|track| track.with_extension("wav")).collect();
    let stats = album.write_tracks(&wavs, Output::default(), |done, all| eprint!("\r{done} of {all}"))?;
    Ok(stats.sheet(album.channels())?)
}

fn main() {
    let tracks: Vec<_> = env::args_os().skip(1).map(PathBuf::from).collect();
    convert(&tracks).map(|sheet| print!("{sheet}")).unwrap_or_else(|e| {
        let track = e.refusal().and_then(|r| tracks.get(usize::from(r.track)));
        eprintln!("{e}{}", track.map_or(String::new(), |name| format!(" ({})", name.display())));
        process::exit(1);
    });
}
