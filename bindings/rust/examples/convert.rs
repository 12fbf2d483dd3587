use puigneht::{Album, Error, Output, Rate, Settings};

fn main() -> Result<(), Error> {
    let settings = Settings { rate: Rate::Hz352800, ..Settings::default() };
    let album = Album::open_file("album.dsf", settings)?;
    let stats = album.write_wav("album.wav", Output::default(), |done, all| eprint!("\r{} %", 100 * done / all))?;
    print!("{}", stats.sheet(album.channels())?); // clips, lowest and highest sample before the clamp
    Ok(())
}
